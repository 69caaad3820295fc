"""Hubs in a row (R-9): the trace of a hub that stands behind another, made from the other's trace and answers.

What a line has sent through the first hub is offered to the second in order, each packet at a tick from its finish to the delay of the line between them later, with its
eligibility as its stamp, on a connection by stamps with the same gap and size, whose allowance is the first hub's bound plus that delay. Some packets are lost on the way. Beside
them the second hub has lines of its own that flood it, notices, closes, and calls that are refused. Of what it answers as much is promised as `fault` holds it to. Its trace and
answers can be followed by a third hub.

A second hub has windows (R-12) where that is asked for, and it may have its stand-by queue on (R-11). What may go early at a hub is not promised anything behind it, and is carried on only where that is asked for; then nothing is held to `fault`.
"""

import random
from collections import namedtuple

from records import ANSWERS, TRACE, admit, admit_stamped, close, link, notice, offer, offer_stamped, records, ticks, written

NOTICE = 254
MOST_UNITS = 2_048
HIGHEST_BOUND = 32_768
LONGEST_WINDOW = 32_768
MOST_CARRIED = 400  # packets of a line that are carried on
MOST_LINES = 30  # lines of a hub that are carried on

# A packet that has left a hub.
Left = namedtuple("Left", "length tag eligibility finish")

# An offer at the second hub and what is promised of it: its place in the trace, its eligibility there, and by when it has left.
Carried = namedtuple("Carried", "place number length tag eligibility latest")


class Line:
    """A connection of a hub from its admission on: its figures, whether its packets may go early, the lengths of what it holds, and what has left."""

    def __init__(self, bound, gap, size, early):
        self.bound, self.gap, self.size, self.early = bound, gap, size, early
        self.held = []
        self.left = []

    def depart(self, tag, eligibility, finish):
        self.left.append(Left(self.held.pop(0), tag, eligibility, finish))


def answers_of_each(trace, answers):
    """Each record of a trace, as its mark and its numbers, with the departures before its answer, and its answer's numbers."""
    given = records(answers, ANSWERS)
    for _, mark, _, numbers in records(trace, TRACE):
        departed = []
        for _, told, _, answer in given:
            if told != b"DP":
                yield mark, numbers, departed, answer
                break
            departed.append(answer)


def lines_of(trace, answers):
    """All lines that a hub ever had, by its trace and answers."""
    every, owners, bounds, stand_by = [], {}, (), False
    for mark, numbers, departed, answer in answers_of_each(trace, answers):
        for number, tag, _, eligibility, finish in departed:
            if number != NOTICE:
                owners[number].depart(tag, eligibility, finish)
        if answer[0] != 0:
            continue
        if mark == b"LK":
            bounds = numbers[3:]
        elif mark in (b"LE", b"LW"):
            # the windows of an LW stand behind the bounds
            bounds, stand_by = numbers[4:4 + numbers[0]], numbers[3] == 1
        elif mark in (b"CN", b"CS"):
            level, gap, size = numbers[:3]
            owners[answer[1]] = Line(bounds[level - 1], gap, size, stand_by and mark == b"CN")
            every.append(owners[answer[1]])
        elif mark in (b"PK", b"PS"):
            owners[numbers[0]].held.append(numbers[1])
    return every


def room_for(lines, largest, silence):
    """The least bound, in some steps, at which the level test lets many of the lines in together; those of the lowest rate first."""
    lines = sorted(lines, key=lambda line: (line.size + silence) / line.gap)
    best = None
    for some in range(1, len(lines) + 1):
        bound = largest + silence
        while bound <= HIGHEST_BOUND:
            packets = sum(-(-bound // line.gap) * (line.size + silence) for line in lines[:some])
            if packets + largest + silence <= bound:
                best = bound, lines[:some]
                break
            bound += 1 + bound // 8
        else:
            break
    return best


class Second:
    """A hub behind another: its trace, and what is promised of it."""

    def __init__(self, lines, numbers, windowed):
        self.numbers, self.windowed = numbers, windowed
        sent = [line for line in lines if line.left]
        numbers.shuffle(sent)
        self.lines = sent[:MOST_LINES]
        self.delay = numbers.choice((0, 1, numbers.randint(0, 20), numbers.randint(0, 300), numbers.randint(0, 9_000)))
        self.lost = numbers.choice((0, 0, 0.1, 0.5))
        self.silence = numbers.choice((0, 0, 1, numbers.randint(1, 8)))
        self.setting = numbers.choice((None, 0, 1, 1))
        self.windows = None
        self.records = []
        self.carried = []
        self.own = []

    def link(self):
        """Bounds that leave room for most lines, and for few more; whether there are such."""
        numbers = self.numbers
        largest = max((line.size for line in self.lines), default=1)
        self.largest = min(MOST_UNITS, largest + numbers.randint(0, 4))
        room = room_for(self.lines, self.largest, self.silence)
        if room is None:
            return False
        bound, self.lines = room
        more = [numbers.randint(0, 20 + bound // 2) for _ in range(numbers.randint(0, 3))]
        self.bounds = sorted({min(HIGHEST_BOUND, bound + some) for some in (numbers.randint(0, 9), *more)})
        if self.windowed:
            self.windows = self.some_windows()
        self.records.append(self.link_again())
        return True

    def some_windows(self):
        """At the bounds, little longer, some times as long, falling, of any length, or the longest."""
        numbers, last = self.numbers, self.bounds[-1]
        style, times = numbers.randrange(6), numbers.randint(1, 4)
        made = []
        for place, bound in enumerate(self.bounds):
            window = (bound, bound + numbers.randint(0, 40), bound * times, last * times // (1 + place), numbers.randint(bound, LONGEST_WINDOW), LONGEST_WINDOW)[style]
            made.append(max(bound, min(LONGEST_WINDOW, window)))
        return made

    def admissions(self):
        """Those of the lines, each at any level, then those of its own."""
        numbers = self.numbers
        self.levels = [numbers.randint(1, len(self.bounds)) for _ in self.lines]
        for level, line in zip(self.levels, self.lines):
            self.records.append(admit_stamped(level, line.gap, line.size, line.bound + self.delay))
        for _ in range(numbers.randint(0, 6)):
            gap = numbers.randint(1 + self.bounds[0] // 4, 2 * self.bounds[-1])
            self.records.append(admit(numbers.randint(1, len(self.bounds)), min(65_535, gap), numbers.randint(1, self.largest)))
        return b"".join(self.records)

    def accepted(self, answers):
        """The lines that were let in, each with its number and its bound here; the numbers of its own lines are kept."""
        given = [numbers for _, mark, _, numbers in records(answers, ANSWERS) if mark == b"CA"]
        self.own = [number for verdict, number, _, _ in given[len(self.lines):] if verdict == 0]
        with_answers = zip(self.lines, self.levels, given)
        return [(line, answer[1], self.bounds[level - 1]) for line, level, answer in with_answers if answer[0] == 0]

    def offers(self, accepted):
        """All that is carried on, as tick, number, packet, allowance and bound here; of each line in order."""
        every = []
        for line, number, bound in accepted:
            at = 0
            for packet in line.left[:MOST_CARRIED]:
                late = self.numbers.choice((0, self.delay, self.numbers.randint(0, self.delay)))
                at = max(at, packet.finish + late)
                if self.numbers.random() >= self.lost:
                    every.append((at, number, packet, line.bound + self.delay, bound))
        return sorted(every, key=lambda one: one[0])

    def run_until(self, now, then):
        """The ticks up to a moment, with calls of its own between them."""
        while now < then:
            step = min(then - now, self.numbers.choice((then - now, 1, 9, 65_535)), 65_535)
            for _ in range(self.numbers.choice((0, 0, 1, 3))):
                self.records.append(self.another_call())
            self.records.append(ticks(step))
            now += step
        return now

    def another_call(self):
        """Of a line of its own, of nobody, or a notice; never one that a carried line would hear."""
        numbers = self.numbers
        choice = numbers.random()
        if choice < 0.2 or not self.own:
            return notice(numbers.randint(0, self.largest + 1), numbers.getrandbits(32))
        own = numbers.choice(self.own)
        if choice < 0.25:
            return close(own)
        if choice < 0.3:
            return admit(numbers.randint(1, len(self.bounds)), 65_535, 1)
        if choice < 0.35:
            return offer(numbers.randrange(256), 1, 0) if choice < 0.33 else self.link_again()
        return offer(own, numbers.randint(1, self.largest), numbers.getrandbits(32))

    def link_again(self):
        return link(self.largest, self.silence, self.bounds, self.setting, self.windows)

    def carry(self, accepted):
        """The whole trace, up to the moment by which all has left."""
        now = 0
        for at, number, packet, allowance, bound in self.offers(accepted):
            now = self.run_until(now, at)
            eligibility = packet.eligibility + allowance
            self.carried.append(
                Carried(len(self.records), number, packet.length, packet.tag, eligibility, eligibility + bound)
            )
            self.records.append(offer_stamped(number, packet.length, packet.tag, packet.eligibility))
        self.run_until(now, max((one.latest for one in self.carried), default=0))
        return b"".join(self.records)

    def fault(self, answers):
        """What is not as promised: each carried packet is accepted, with neither 17 nor 12, eligible the allowance behind its stamp, and leaves in order, not before that plus
        its length and by that plus the bound here. Nothing if all is."""
        told, departed = [], {}
        for _, mark, _, numbers in records(answers, ANSWERS):
            if mark == b"DP":
                departed.setdefault(numbers[0], []).append((numbers[1], *numbers[3:]))
            else:
                told.append(written(mark, *numbers))
        for one in self.carried:
            if told[one.place:one.place + 1] != [written(b"PA", 0, one.eligibility)]:
                return f"record {one.place}, a packet carried on, is answered {told[one.place:one.place + 1]}, not eligible at {one.eligibility}"
            tag, eligibility, finish = (departed.get(one.number) or [(None, 0, 0)]).pop(0)
            if (tag, eligibility) != (one.tag, one.eligibility) or not one.eligibility + one.length <= finish <= one.latest:
                return f"record {one.place}, a packet carried on, leaves at {finish}, not from {one.eligibility + one.length} to {one.latest}"
        return None


def behind(trace, answers, seed, run, early=False, windowed=False):
    """A hub behind the one with this trace and these answers, and its trace; nothing if no line can be carried on. `run` gives its answers to an admission.
    Lines whose packets may go early are carried on where `early` says so; the hub has windows where `windowed` says so."""
    lines = [line for line in lines_of(trace, answers) if early or not line.early]
    second = Second(lines, random.Random(seed), windowed)
    if not second.link():
        return None
    accepted = second.accepted(run(second.admissions()))
    return (second, second.carry(accepted)) if accepted else None

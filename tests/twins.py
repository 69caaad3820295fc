"""Pairs of traces that differ in everything but one line (R-3).

One line keeps its word, which is its gap and, with an average, n packets to a window (R-6), is
closed in neither (R-8), and makes the same offers at the same ticks in both; the other lines, the
notices and the calls around it, closes among them, are drawn anew for each. The line's number may
differ, and may have had other owners before; in every fourth pair up to 199 lines stand before it
(R-7). In other pairs the line is by stamps (R-9): its offers of allowed length come a gap apart,
with any stamps. In others again the stand-by queue is on (R-11), in both traces or in one of them.
In others the line has frames (R-13), and at most half as many of its offers of allowed length as it
has places come in each frame.
"""

import random
from collections import namedtuple

from records import ANSWERS, CannotRead, admit, admit_stamped, close, framing, link, notice, offer, offer_stamped, records, share, ticks, written

CLOCK_END = 4_000_000_000
LAST_TICK = 240
MOST_CONNECTIONS = 200


# What the shared line is told in one trace, and what it must be told.
Twin = namedtuple("Twin", "told expected number")

# An offer of the shared line: without a stamp there is None.
Offer = namedtuple("Offer", "length tag stamp told")


def answers(output):
    """The answers in order, one for each record of the trace: departures are left out."""
    return [written(mark, *numbers) for _, mark, _, numbers in records(output, ANSWERS) if mark != b"DP"]


def some_average(numbers, gap):
    """A window and an average gap for a line of this gap; none half of the time."""
    packets = numbers.choice((0, 0, 0, 1, 2, numbers.randint(1, 16)))
    average = numbers.randint(gap, 3 * gap + 10) if packets else 0
    return packets * average, average


class Line:
    """The line that both traces share: its figures, the tick of its admission, its offers. Its hub may have the stand-by queue on."""

    by_stamps = False
    stand_by = False
    framed = False

    def __init__(self, numbers, bounds, largest, silence):
        self.level = numbers.randint(1, len(bounds))
        self.gap = numbers.randint(1, 40 + 2 * silence)
        self.size = numbers.randint(1, largest)
        self.draw_kind(numbers)
        self.admitted = numbers.randint(0, 20)
        self.offers = {}
        sent = []
        start = self.admitted + numbers.randint(0, 10)
        for tick in range(self.admitted, LAST_TICK):
            if tick >= max(start, self.earliest(sent)) and numbers.random() < 0.8:
                self.add(tick, numbers.randint(1, self.size), numbers)
                sent.append(tick)
            if numbers.random() < 0.05:
                self.add(tick, numbers.choice((0, self.size + 1, 65_535)), numbers)
        self.at_end = None
        if numbers.random() < 0.05:
            self.at_end = self.offered(CLOCK_END, numbers.randint(1, self.size), 0, numbers)

    def draw_kind(self, numbers):
        self.window, self.average = some_average(numbers, self.gap)

    def admission(self):
        return admit(self.level, self.gap, self.size, self.window, self.average)

    def earliest(self, sent):
        """When it may send next, by its word."""
        earliest = sent[-1] + self.gap if sent else 0
        packets = self.window // self.average if self.average else 0
        if packets and len(sent) >= packets:
            earliest = max(earliest, sent[-packets] + self.window)
        return earliest

    def add(self, tick, length, numbers):
        self.offers.setdefault(tick, []).append(self.offered(tick, length, numbers.getrandbits(32), numbers))

    def offered(self, tick, length, tag, _numbers):
        return Offer(length, tag, None, self.told(tick, length))

    def told(self, tick, length, stamp=None):
        """Its own figures and its own offers decide (R-3)."""
        if not 1 <= length <= self.size:
            verdict, eligibility = 11, 0
        elif tick == CLOCK_END:
            verdict, eligibility = 13, 0
        else:
            verdict, eligibility = self.judged(tick, stamp)
        return written(b"PA", verdict, eligibility)

    def judged(self, tick, _stamp):
        return 0, tick


class StampedLine(Line):
    """The same by stamps (R-9); `last` is the eligibility of its last accepted packet."""

    by_stamps = True

    def draw_kind(self, numbers):
        self.window = self.average = 0
        self.allowance = numbers.choice((0, 1, self.gap, numbers.randint(0, 3 * self.gap), numbers.randint(0, 200)))
        self.last = None

    def admission(self):
        return admit_stamped(self.level, self.gap, self.size, self.allowance)

    def offered(self, tick, length, tag, numbers):
        """With a stamp that is timely, if any is, or about the edges of the causes of 17."""
        earliest = max(tick, self.least()) - self.allowance
        edge = numbers.choice((tick, earliest, self.least() - self.allowance, tick - self.allowance)) + numbers.randint(-1, 1)
        timely = numbers.randint(min(earliest, tick), tick)
        stamp = min(max(0, numbers.choice((timely, timely, timely, edge))), 0xFFFFFFFF)
        return Offer(length, tag, stamp, self.told(tick, length, stamp))

    def least(self):
        """The least eligibility that the gap allows."""
        return 0 if self.last is None else self.last + self.gap

    def judged(self, tick, stamp):
        eligibility = stamp + self.allowance
        if stamp > tick or eligibility < tick or eligibility < self.least():
            return 17, 0
        self.last = eligibility
        return 0, eligibility


class EarlyLine(Line):
    stand_by = True


class EarlyStampedLine(StampedLine):
    stand_by = True


class Ward:
    """One of the two traces: the shared line among others that are drawn at random."""

    def __init__(self, numbers, limits, line, busy):
        self.numbers, self.line, self.busy = numbers, line, busy
        self.bounds, self.largest, silence, setting = limits
        self.link = link(self.largest, silence, self.bounds, setting)
        self.records = [self.link]
        self.closes = numbers.choice((0, 0.17))
        self.own = None
        self.now = 0
        self.expected = {}

    def many_stand(self):
        """Lines of one packet each, as many as leave a number for the shared one or fewer."""
        for _ in range(self.numbers.randrange(MOST_CONNECTIONS)):
            self.records.append(admit(self.numbers.randint(1, len(self.bounds)), 65_535, 1))

    def others(self):
        """A call of somebody else, never an offer or a close under the shared line's number."""
        numbers = self.numbers
        if self.line.by_stamps and numbers.random() < 0.4:
            return self.others_by_stamps()
        choice = numbers.random()
        if choice < 0.15:
            level, gap = numbers.randint(0, len(self.bounds) + 1), numbers.randint(1, 300)
            return admit(level, gap, numbers.randint(1, self.largest), *some_average(numbers, gap))
        if choice < 0.3:
            return notice(numbers.randint(0, self.largest + 1), numbers.getrandbits(32))
        if choice < 0.33:
            return self.link
        connection = self.another()
        if choice < 0.33 + self.closes:
            return close(connection)
        return offer(connection, numbers.randint(0, self.largest + 1), numbers.getrandbits(32))

    def another(self):
        """A number that is not the shared line's."""
        some = (*range(8), self.numbers.randrange(MOST_CONNECTIONS), MOST_CONNECTIONS, 254, 255)
        return self.numbers.choice([c for c in some if c != self.own])

    def others_by_stamps(self):
        """An admission or an offer of somebody else, by stamps; or one without a stamp to the shared line, which does not hear it."""
        numbers = self.numbers
        choice = numbers.random()
        if choice < 0.3:
            level, gap = numbers.randint(0, len(self.bounds) + 1), numbers.randint(1, 300)
            return admit_stamped(level, gap, numbers.randint(1, self.largest), numbers.randint(0, 300))
        if choice < 0.4 and self.own is not None:
            return offer(self.own, 1, numbers.getrandbits(32))
        stamp = max(0, self.now + numbers.randint(-100, 5))
        return offer_stamped(self.another(), numbers.randint(1, self.largest), numbers.getrandbits(32), stamp)

    def crowd(self):
        for _ in range(self.numbers.randint(0, self.busy)):
            self.records.append(self.others())

    def until_admitted(self):
        """Up to the admission of the shared line; before it nobody is sure of a number."""
        for self.now in range(self.line.admitted):
            self.crowd()
            self.records.append(ticks(1))
        self.crowd()
        self.records.append(self.line.admission())
        return b"".join(self.records)

    def ask(self, asked):
        self.expected[len(self.records)] = asked.told
        plain = (self.own, asked.length, asked.tag)
        self.records.append(offer(*plain) if asked.stamp is None else offer_stamped(*plain, asked.stamp))

    def after_admitted(self, own):
        self.own = own
        for self.now in range(self.line.admitted, LAST_TICK):
            self.crowd()
            for asked in self.line.offers.get(self.now, ()):
                self.ask(asked)
                self.crowd()
            self.records.append(ticks(1))
        if self.line.at_end is not None:
            self.to_the_end(LAST_TICK)
            self.ask(self.line.at_end)
        return b"".join(self.records)

    def to_the_end(self, tick):
        longest = self.numbers.randint(60_000, 65_535)
        while tick < CLOCK_END:
            step = min(longest, CLOCK_END - tick)
            self.records.append(ticks(step))
            tick += step


class FramedLine(Line):
    """The same on a line with frames; `used` is what it has used of each frame."""

    framed = True

    def __init__(self, numbers, frame, largest, silence):
        self.frame, self.largest, self.silence = frame, largest, silence
        self.units = numbers.choice((silence, silence + 1, largest + silence, numbers.randint(1, frame - largest - silence))) or 1
        self.places = numbers.choice((2, 3, 4, 5, numbers.randint(2, 20)))
        self.admitted = numbers.randint(0, 20)
        self.offers, self.used = {}, {}
        left = {}
        for tick in range(self.admitted, LAST_TICK):
            now = tick // frame
            while numbers.random() < 0.3 and left.setdefault(now, self.places // 2):
                left[now] -= 1
                rest = self.units - self.used.get(now, 0) - silence
                length = numbers.choice((1, rest, rest + 1, numbers.randint(1, largest)))
                self.add(tick, min(max(1, length), largest), numbers)
            if numbers.random() < 0.05:
                self.add(tick, numbers.choice((0, largest + 1, 65_535)), numbers)
        self.at_end = self.offered(CLOCK_END, 1, 0, numbers) if numbers.random() < 0.05 else None

    def admission(self):
        return share(self.units, self.places)

    def told(self, tick, length, _stamp=None):
        now = tick // self.frame
        used = self.used.get(now, 0) + length + self.silence
        if not 1 <= length <= self.largest:
            return written(b"PA", 11, 0)
        if tick == CLOCK_END:
            return written(b"PA", 13, 0)
        if used > self.units:
            return written(b"PA", 19, 0)
        self.used[now] = used
        return written(b"PA", 0, (now + 1) * self.frame)


class FramedWard(Ward):
    """One of two traces with frames; some of the others' calls are of the other discipline."""

    def __init__(self, numbers, line, busy):
        self.numbers, self.line, self.busy = numbers, line, busy
        self.largest = line.largest
        self.link = framing(line.frame, line.largest, line.silence)
        self.records = [self.link]
        self.own, self.now, self.expected = None, 0, {}

    def others(self):
        numbers = self.numbers
        tag = numbers.getrandbits(32)
        choice = numbers.random()
        if choice < 0.15:
            return share(numbers.randint(0, max(1, self.line.frame // 4)), numbers.choice((0, 1, 3, numbers.randint(1, 60))))
        if choice < 0.3:
            return notice(numbers.randint(0, self.largest + 1), tag)
        if choice < 0.4:
            level = (admit(1, 20, 1), admit_stamped(1, 20, 1, 5), close(self.another()), offer_stamped(self.another(), 1, tag, 0), link(4, 0, [20]))
            return numbers.choice((self.link, *level))
        return offer(self.another(), numbers.randint(0, self.largest + 1), tag)


def framed_twin(seed, which, run):
    """One trace of a pair with frames, run; nothing if the shared line is refused even where it is alone."""
    shared = random.Random(f"frames {seed}")
    largest = shared.randint(1, 8)
    silence = shared.choice((0, 0, 1, 2, shared.randint(1, 64)))
    frame = (largest + silence) * shared.randint(2, 9) + shared.randint(1, 20)
    for busy in (4, 3, 2, 1, 0):
        line = FramedLine(random.Random(f"line {seed}"), frame, largest, silence)
        ward = FramedWard(random.Random(f"{seed} {which} {busy} frames"), line, busy)
        admitted = answers_of(ward, ward.until_admitted(), run)[-1]
        if admitted[2] == 0:
            return told_of(ward, admitted[3], run)
    return None


def told_of(ward, number, run):
    given = answers_of(ward, ward.after_admitted(number), run)
    return Twin(b"".join(given[at] for at in ward.expected), b"".join(ward.expected.values()), number)


def answers_of(ward, trace, run):
    given = answers(run(trace))
    if len(given) != len(ward.records):
        raise CannotRead(f"{len(ward.records)} records, {len(given)} answers")
    return given


def twin(seed, which, run, kind=Line):
    """One trace of a pair, run; nothing if the shared line, by its gap or by stamps, is refused even where it is alone."""
    if kind.framed:
        return framed_twin(seed, which, run)
    shared = random.Random(f"stamps {seed}" if kind.by_stamps else seed)
    largest = shared.randint(1, 8)
    silence = shared.choice((0, 0, 1, 2, shared.randint(1, 64)))
    first = largest + silence + shared.randint(4, 60 + 6 * silence)
    bounds = sorted([first, *(first + shared.randint(0, 200) for _ in range(shared.randint(0, 3)))])
    crowded = seed % 4 == 3
    if crowded:  # room for a packet of each line and for more
        bounds = [bound + (MOST_CONNECTIONS + 50) * (1 + silence) for bound in bounds]
    line = kind(shared, bounds, largest, silence)
    setting = int(which == "one" or seed % 2 == 0) if kind.stand_by else None
    for busy in (4, 3, 2, 1, 0):
        numbers = random.Random(f"{seed} {which} {busy}{' stamps' * kind.by_stamps}")
        ward = Ward(numbers, (bounds, largest, silence, setting), line, busy)
        if crowded:
            ward.many_stand()
        admitted = answers_of(ward, ward.until_admitted(), run)[-1]
        if admitted[2] == 0:
            return told_of(ward, admitted[3], run)
    return None

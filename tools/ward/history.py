"""What became of each line, from a trace and its log: its offers, its packets, its delays. The log is believed as it is; `ward check` tells whether it is the
one that the rules give."""

from collections import Counter, deque
from typing import NamedTuple

from ward.ends import cannot_read
from ward.exchanges import exchanges
from ward.figures import NOTICES, Frames, Gap, Levels, Share, Stamps
from ward.records import ANSWERED, CannotRead
from ward.verdicts import DONE

# The verdict of an offer whose stamp is not timely.
UNTIMELY = 17
# Why a record that can be read is answered with `ER`.
TOO_LONG = "a trace has at most 16,777,216 bytes"
ADMISSIONS = {b"CN": Gap, b"CS": Stamps, b"CF": Share}


class Packet(NamedTuple):
    """A packet that was accepted, and has left, or is held: then its finish is None."""

    line: "Line"
    length: int
    tag: int
    arrival: int
    eligibility: int
    finish: int = None

    def start(self):
        """When its first unit went: nothing interrupts a packet."""
        return self.finish - self.length

    def delay(self):
        return self.finish - self.eligibility


class Refusal(NamedTuple):
    """An offer that was refused."""

    line: "Line"
    tick: int
    verdict: int
    tag: int


class Line:
    """A connection from its admission on; or notices, or offers under a number that is nobody's: these have no figures."""

    def __init__(self, number, figures, link, name):
        self.number, self.figures, self.link, self.name = number, figures, link, name
        self.accepted, self.departed, self.broken, self.late = 0, 0, 0, 0
        self.refused, self.held, self.offers = Counter(), deque(), deque(maxlen=17)
        self.longest = self.closed = None

    def bound(self):
        """By when behind its eligibility each packet leaves; None where nothing is promised."""
        if self.figures is None:
            return None
        return self.link.length if isinstance(self.figures, Share) else self.link.bounds[self.figures.level - 1]

    def largest(self):
        """The longest packet that it may offer."""
        return self.link.largest if isinstance(self.figures, Share) else self.figures.size

    def breaks_word(self, tick, length, verdict):
        """Whether an offer breaks the line's word: by its gap and average, past half of its places in a frame, or, by stamps, where its stamp is not timely.
        Offers of a length that is not allowed do not count."""
        if self.figures is None or not 1 <= length <= self.largest():
            return False
        if isinstance(self.figures, Stamps):
            return verdict == UNTIMELY
        return self.past_half(tick) if isinstance(self.figures, Share) else self.too_soon(tick)

    def too_soon(self, tick):
        """Whether an offer comes less than a gap behind the one before, or less than a window behind the n-th before."""
        before, line = list(self.offers), self.figures
        self.offers.append(tick)
        packets = line.window // line.average if line.average else 0
        if before and tick - before[-1] < line.gap:
            return True
        return 0 < packets <= len(before) and tick - before[-packets] < line.window

    def past_half(self, tick):
        """Whether more offers than half of the places have come in this frame."""
        frame = tick // self.link.length
        count = self.offers[-1][1] + 1 if self.offers and self.offers[-1][0] == frame else 1
        self.offers.append((frame, count))
        return 2 * count > self.figures.places


def must_answer(exchange):
    """Raises Ended where a record is answered with something that is no answer to it: the log is of another trace."""
    record, last = exchange.record, exchange.answers[-1].mark
    if last != ANSWERED[record.mark] and not (record.mark == b"TK" and last == b"DP"):
        place = f"record {exchange.count} of the trace, at its byte {record.at}"
        raise cannot_read(place, f"the log answers a {record.mark.decode()} with {last.decode()}: it is no log of this trace")


def suits(link, figures):
    """Whether a line can stand on a link: as far as its bound must be known."""
    if isinstance(figures, Share):
        return isinstance(link, Frames)
    return isinstance(link, Levels) and figures.level in link.levels()


class History:
    """All lines of a trace and its log, up to damage in either, with the clock, and how often something else than an offer was refused, by what and by
    verdict. `keep` is handed every packet when it has left, or at the end, and every refusal of an offer. `pumps` are those of the ward that the trace was made
    of, in the order in which they ask: for their names."""

    def __init__(self, pumps=(), keep=lambda event: None):
        self.link, self.clock, self.records, self.at, self.damage, self.log_is_damaged = None, 0, 0, 0, None, False
        self.lines, self.standing, self.nobody, self.refused = [], {}, {}, Counter()
        self.pumps, self.keep, self.owners = list(pumps), keep, Counter()
        self.notices = Line(NOTICES, None, None, "notices")

    def read(self, trace, log, progress=lambda history: None):
        """Goes through a trace and its log, both files."""
        try:
            for exchange in exchanges(trace, log):
                if exchange.damage or (exchange.answers and exchange.answers[-1].mark == b"ER"):
                    self.damage = CannotRead(exchange.damage or TOO_LONG, exchange.record.at)
                    break
                self.take(exchange)
                progress(self)
        except CannotRead as damage:
            self.damage, self.log_is_damaged = damage, True
        for line in self.all_lines():
            for packet in line.held:
                self.keep(packet)
        return self

    def take(self, exchange):
        """Takes in one exchange."""
        self.records, self.at = exchange.count, exchange.record.at
        if exchange.answers:
            must_answer(exchange)
            self.follow(exchange.record, exchange.answers)

    def all_lines(self):
        """The lines in the order in which they were let in, then offers under numbers that are nobody's, then notices, as far as there are such."""
        notices = [self.notices] if self.notices.accepted or self.notices.refused else []
        return [*self.lines, *self.nobody.values(), *notices]

    def follow(self, record, answers):
        """Takes in one record and its answers."""
        named, told = record.named(), answers[-1].named()
        if record.mark in (b"LK", b"LE", b"LW", b"LF"):
            self.linked(record.mark, named, told)
        elif record.mark in ADMISSIONS:
            self.admitted(ADMISSIONS[record.mark](*record.numbers), told)
        elif record.mark == b"CL":
            self.close(named["connection"], told)
        elif record.mark == b"NQ":
            self.offered(self.notices, named, told)
        elif record.mark in (b"PK", b"PS"):
            self.offered(self.line_of(named["connection"]), named, told)
        else:
            self.ticked(answers)

    def linked(self, mark, named, told):
        if told["verdict"] != DONE:
            self.refused["a link", told["verdict"]] += 1
            return
        if mark == b"LF":
            self.link = Frames(max(1, named["frame"]), named["largest"], named["silence"])
            return
        lists = [tuple(named[f"{what} {level}"] for level in range(1, named["levels"] + 1) if f"{what} {level}" in named) for what in ("bound", "window")]
        self.link = Levels(named["largest"], named["silence"], *lists, named.get("setting", 0))

    def admitted(self, figures, told):
        name = self.name_of(figures)
        if told["verdict"] != DONE:
            self.refused[name or f"a line of {figures.words()}", told["verdict"]] += 1
            return
        if not suits(self.link, figures):
            raise cannot_read(f"record {self.records} of the trace", f"the log lets {figures.words()} in, and no link has room for it: it is no log of this trace")
        line = Line(told["connection"], figures, self.link, name or self.name_by(told["connection"]))
        self.lines.append(line)
        self.standing[line.number] = line

    def name_by(self, number):
        """A name by the number, which may have had other owners before."""
        self.owners[number] += 1
        return f"line {number}" if self.owners[number] == 1 else f"line {number}, owner {self.owners[number]}"

    def name_of(self, figures):
        """The name of the pump that asks now; None where the ward is not known, or all of its pumps have asked."""
        if not self.pumps:
            return None
        pump = self.pumps.pop(0)
        if pump.figures != figures:
            raise cannot_read(f"{pump.place}: {pump.name}", f"the trace was made of another ward: {figures.words()} asks in its place")
        return pump.name

    def close(self, number, told):
        if told["verdict"] != DONE:
            self.refused[f"a close of {number}", told["verdict"]] += 1
            return
        if number in self.standing:
            self.standing.pop(number).closed = self.clock

    def line_of(self, number):
        """Who stands under a number; offers to nobody are counted by their number."""
        if number in self.standing:
            return self.standing[number]
        return self.nobody.setdefault(number, Line(number, None, self.link, f"nobody ({number})"))

    def offered(self, line, named, told):
        verdict = told["verdict"]
        line.broken += line.breaks_word(self.clock, named["length"], verdict)
        if verdict == DONE:
            line.accepted += 1
            line.held.append(Packet(line, named["length"], named["tag"], self.clock, told["eligibility"]))
        else:
            line.refused[verdict] += 1
            self.keep(Refusal(line, self.clock, verdict, named["tag"]))

    def ticked(self, answers):
        for answer in answers:
            named = answer.named()
            if answer.mark == b"DP":
                self.departed(named)
            elif answer.mark == b"TA":
                self.clock += named["done"]
                if named["verdict"] != DONE:
                    self.refused["a tick", named["verdict"]] += 1

    def departed(self, named):
        """A departure is that of the first held packet of its line."""
        line = self.notices if named["connection"] == NOTICES else self.standing.get(named["connection"])
        if line is None or not line.held:
            return
        packet = line.held.popleft()._replace(finish=named["finish"])
        line.departed += 1
        if line.longest is None or packet.delay() > line.longest:
            line.longest = packet.delay()
        line.late += line.bound() is not None and packet.delay() > line.bound()
        self.keep(packet)

"""`ward picture`: a trace and its log as a time line, a row for each line, over a window of ticks."""

from ward.figures import NOTICES, Frames, Share
from ward.history import Packet
from ward.svg import Drawing, Scale, fitted, room_of
from ward.verdicts import words

WIDTH, LEFT, RIGHT = 1200, 236, 30
# The height of a lane and of a row's label at the least, the strip for refusals, what is between rows, and how large marks are.
LANE, LEAST_ROW, STRIP, BETWEEN, MARK = 22, 50, 18, 8, 12
# At most so many rows, and how many lanes each has at most where there are so many rows: what fits on an upright page of A4.
MOST_ROWS = 18
MOST_LANES = ((6, 6), (10, 4), (14, 3), (MOST_ROWS, 2))
# How many ticks are shown where it is not said: so many, or so many times the first bound, whichever is more.
LEAST_TICKS, BOUNDS_SHOWN = 400, 2


class Window:
    """The ticks from one to another, and what of a history lies in them."""

    def __init__(self, low, high):
        self.low, self.high, self.packets, self.refusals = low, high, {}, {}

    def keep(self, event):
        """Takes in what is seen of it: of a packet all from its arrival to the end of its bound, of a refusal its tick."""
        if isinstance(event, Packet):
            if event.arrival <= self.high and end_of(event) >= self.low:
                self.packets.setdefault(event.line, []).append(event)
        elif self.low <= event.tick <= self.high:
            self.refusals.setdefault(event.line, []).append(event)

    def sees(self, tick):
        return self.low <= tick <= self.high

    def sent(self):
        """All packets that were on the wire, in order."""
        gone = [packet for packets in self.packets.values() for packet in packets if packet.finish is not None]
        return sorted((packet for packet in gone if packet.start() <= self.high and packet.finish >= self.low), key=Packet.start)


def usual_ticks(link):
    """How many ticks are shown where it is not said."""
    first = 0 if link is None else link.length if isinstance(link, Frames) else link.bounds[0]
    return max(LEAST_TICKS, BOUNDS_SHOWN * first)


def end_of(packet):
    """Until when a packet takes room in its row."""
    bound = packet.line.bound()
    return max(packet.arrival + 1, packet.finish or 0, packet.eligibility + bound if bound else 0)


def closeness(window, line):
    """What is looked at first: how often a line was refused, and how close to its bound it came."""
    bound = line.bound()
    shares = [packet.delay() / bound for packet in window.packets.get(line, ()) if bound and packet.finish is not None]
    return len(window.refusals.get(line, ())), max(shares, default=0)


def chosen(history, window, wanted):
    """The lines to draw, in their order: those that are wanted; else those in the window, and of too many those that are looked at first. With how many are
    left out."""
    seen = [line for line in history.all_lines() if line in window.packets or line in window.refusals]
    if wanted:
        return [line for line in history.all_lines() if line.name in wanted], 0
    kept = set(sorted(seen, key=lambda line: closeness(window, line), reverse=True)[:MOST_ROWS])
    return [line for line in seen if line in kept], len(seen) - len(kept)


def lanes_of(packets, most):
    """Packets in lanes, so that none covers another as long as there are lanes enough."""
    lanes = []
    for packet in sorted(packets, key=lambda packet: (packet.arrival, packet.eligibility)):
        free = [lane for lane in lanes if end_of(lane[-1]) < packet.arrival]
        if not free and len(lanes) < most:
            lanes.append([])
            free = lanes[-1:]
        (free[0] if free else min(lanes, key=lambda lane: end_of(lane[-1]))).append(packet)
    return lanes


def line_words(line):
    """What a line has, under its name."""
    if line.figures is None:
        return "64 may wait" if line.number == NOTICES else "no line has this number"
    if isinstance(line.figures, Share):
        return f"{line.figures.units} units a frame"
    return f"level {line.figures.level}, bound {line.bound()}"


def refusal_words(refusals):
    verdicts = sorted({refusal.verdict for refusal in refusals})
    return f"{len(refusals)} refused, verdict {', '.join(map(str, verdicts))}"


class TimeLine(Drawing):
    """The time line of a window."""

    def __init__(self, history, window, wanted=()):
        super().__init__(WIDTH, f"The line from tick {window.low} to tick {window.high}")
        self.history, self.window = history, window
        self.lines, self.left_out = chosen(history, window, wanted)
        self.silence = history.link.silence if history.link else 0
        self.most_lanes = next(lanes for rows, lanes in MOST_LANES if len(self.lines) <= rows)
        self.x = Scale(window.low, window.high, LEFT, WIDTH - RIGHT)
        self.head()
        self.legend()
        top = self.axis()
        self.grid_from = len(self.parts)
        for line in self.lines:
            self.row(line)
        self.wire()
        self.grid(top)
        self.foot()

    def head(self):
        self.text("title", 20, 36, self.title)
        link = self.history.link.words() if self.history.link else "no link"
        self.text("small", 20, 60, fitted(f"Link: {link}", 16, WIDTH - 40))
        self.height = 72

    def legend(self):
        """What each mark means, in two rows of four."""
        marks = [
            ("it comes", lambda x, y: self.triangle("arrival key", x + 6, y + 6, MARK)),
            ("it may go from here on", lambda x, y: self.line("eligible key", x + 6, y - 9, x + 6, y + 9)),
            ("its bound", lambda x, y: (self.rect("bound key", x - 6, y - 8, 24, 16), self.line("deadline key", x + 18, y - 9, x + 18, y + 9))),
            ("it is refused", lambda x, y: self.cross("refusal key", x + 6, y, MARK)),
            ("it is on the wire", lambda x, y: self.rect("service key", x - 6, y - 6, 24, 12)),
            ("the wire is silent", lambda x, y: self.rect("silence key", x - 6, y - 6, 24, 12)),
            ("it has left", lambda x, y: self.circle("departure key", x + 6, y, MARK / 2)),
            ("it waits until then", lambda x, y: self.line("waiting key", x - 6, y, x + 18, y)),
        ]
        for place, (said, draw) in enumerate(marks):
            x, y = 30 + place % 4 * 290, self.height + 18 + place // 4 * 28
            draw(x, y)
            self.text("legend", x + 28, y + 6, said)
        self.height += 64

    def ticks(self):
        """The ticks that the axis names, as far apart as their numbers are wide."""
        return self.x.steps(max(80, room_of(f"{self.window.high}  ", 16)))

    def axis(self):
        """The ticks above the rows; the number of the last one is left out where it would go beyond the page."""
        self.height += 24
        for tick in self.ticks():
            if self.x(tick) + room_of(str(tick), 16) / 2 <= WIDTH:
                self.text("axis", self.x(tick), self.height, str(tick), "middle", {"tick": tick})
        self.text("axis", LEFT - 60, self.height, "tick", "end")
        self.height += 8
        return self.height

    def grid(self, top):
        """Lines under the rows' marks, from the axis to the last row."""
        drawn, self.parts = self.parts, []
        for tick in self.ticks():
            self.line("grid", self.x(tick), top, self.x(tick), self.height)
        self.parts = drawn[:self.grid_from] + self.parts + drawn[self.grid_from:]

    def row(self, line):
        """A line: its label, its refusals in a strip, and its packets in lanes."""
        refusals, lanes = self.window.refusals.get(line, []), lanes_of(self.window.packets.get(line, ()), self.most_lanes)
        strip = STRIP if refusals else 0
        height = max(LEAST_ROW + strip, strip + LANE * len(lanes) + 6)
        top = self.height
        self.line("rule", 16, top, WIDTH - RIGHT + 10, top)
        self.text("label", 20, top + 21, fitted(line.name, 19, LEFT - 30), data={"line": line.name})
        self.text("small", 20, top + 41, line_words(line))
        if refusals:
            self.text("small", 20, top + 60, refusal_words(refusals))
        for refusal in refusals:
            hint = f"{line.name}, tag {refusal.tag}, refused at {refusal.tick}: {words(refusal.verdict)}"
            self.cross("refusal", self.x(refusal.tick), top + 11, MARK, hint, {"line": line.name, "tick": refusal.tick, "tag": refusal.tag})
        for number, lane in enumerate(lanes):
            for packet in lane:
                self.packet(packet, top + strip + 3 + LANE * number)
        self.height += height + BETWEEN

    def stretch(self, cls, low, high, y, height, hint, data):
        """A rectangle from one tick to another, as far as it is seen, and never too thin to be seen."""
        if high > self.window.low and low < self.window.high:
            left, right = self.x.within(low, high)
            self.rect(cls, left, y, max(right - left, 1.5), height, hint, {**data, "from": low, "to": high})

    def packet(self, packet, y):
        """A packet in its lane."""
        line, bound = packet.line, packet.line.bound()
        end = f"left at {packet.finish}" if packet.finish is not None else "is held"
        hint = f"{line.name}, tag {packet.tag}: came at {packet.arrival}, may go from {packet.eligibility}, {end}"
        data = {"line": line.name, "tag": packet.tag}
        if bound:
            self.stretch("bound", packet.eligibility, packet.eligibility + bound, y + 3, LANE - 6, hint, data)
            self.upright("deadline", packet.eligibility + bound, y, hint, data)
        self.upright("eligible", packet.eligibility, y, hint, data)
        if packet.arrival < packet.eligibility and packet.arrival < self.window.high and packet.eligibility > self.window.low:
            self.line("waiting", *self.flat(packet.arrival, packet.eligibility, y + LANE / 2), hint, data)
        if packet.finish is not None:
            self.stretch("service", packet.start(), packet.finish, y + 6, LANE - 12, hint, data)
            self.stretch("silence", packet.finish, packet.finish + self.silence, y + 6, LANE - 12, "", data)
            if self.window.sees(packet.finish):
                late = bound is not None and packet.delay() > bound
                self.circle("late" if late else "departure", self.x(packet.finish), y + LANE / 2, MARK / 2 - 1, hint, {**data, "tick": packet.finish})
        if self.window.sees(packet.arrival):
            self.triangle("arrival", self.x(packet.arrival), y + LANE / 2 - 1, MARK - 2, hint, {**data, "tick": packet.arrival})

    def flat(self, low, high, y):
        """The ends of a line from one tick to another, as far as it is seen."""
        left, right = self.x.within(low, high)
        return left, y, right, y

    def upright(self, cls, tick, y, hint, data):
        if self.window.sees(tick):
            self.line(cls, self.x(tick), y + 1, self.x(tick), y + LANE - 1, hint, {**data, "tick": tick})

    def wire(self):
        """All that was on the wire, in one row."""
        top = self.height
        self.line("rule", 16, top, WIDTH - RIGHT + 10, top)
        self.text("label", 20, top + 21, "the wire")
        self.text("small", 20, top + 41, "all packets")
        for packet in self.window.sent():
            data = {"line": packet.line.name, "tag": packet.tag, "row": "wire"}
            self.stretch("service", packet.start(), packet.finish, top + 12, 24, f"{packet.line.name}, tag {packet.tag}", data)
            self.stretch("silence", packet.finish, packet.finish + self.silence, top + 12, 24, "", data)
        self.height += LEAST_ROW
        self.line("rule", 16, self.height, WIDTH - RIGHT + 10, self.height)

    def foot(self):
        """What is not in the picture."""
        self.height += 24
        rest = f"The trace goes on to tick {self.history.clock}. " if self.history.clock > self.window.high else ""
        rest += f"{self.left_out} more lines are not shown; those above were refused or came closest to their bounds." if self.left_out else ""
        if rest:
            self.text("small", 20, self.height, rest)
        self.height += 12

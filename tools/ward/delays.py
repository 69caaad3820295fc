"""`ward picture --delays`: how long the packets of each line took, beside its bound."""

from ward.history import Packet
from ward.picture import LEFT, WIDTH, line_words
from ward.svg import Drawing, Scale, fitted

ROW, MOST_ROWS, RIGHT = 46, 30, 250
# How far past the bound the picture goes, and before the eligibility, in hundredths of the bound.
PAST, BEFORE = 110, 0
DOT = 5
# How far apart two marks of the axis must be.
MARK_ROOM = 120


class Delays:
    """The packets of each line that have left, kept while a history is read; of each delay one."""

    def __init__(self, low, high):
        self.low, self.high, self.found = low, high, {}

    def keep(self, event):
        if isinstance(event, Packet) and event.finish is not None and event.line.bound() and self.low <= event.arrival <= self.high:
            counts = self.found.setdefault(event.line, {})
            counts[event.delay()] = counts.get(event.delay(), 0) + 1

    def share(self, line):
        return max(self.found[line]) / line.bound()


def chosen(history, delays, wanted):
    """The lines to draw, in their order: those that are wanted, else those that sent, and of too many those that came closest to their bounds. With how many
    are left out."""
    sent = [line for line in history.lines if line in delays.found]
    if wanted:
        return [line for line in sent if line.name in wanted], 0
    kept = set(sorted(sent, key=delays.share, reverse=True)[:MOST_ROWS])
    return [line for line in sent if line in kept], len(sent) - len(kept)


class DelayPicture(Drawing):
    """A row for each line, as wide as its bound: a dot for each packet's delay."""

    def __init__(self, history, delays, wanted=()):
        super().__init__(WIDTH, "How long packets took, beside their bounds")
        self.history, self.delays = history, delays
        self.lines, left_out = chosen(history, delays, wanted)
        least = min((min(delays.found[line]) * 100 // line.bound() for line in self.lines), default=0)
        self.x = Scale(min(BEFORE, least), PAST, LEFT, WIDTH - RIGHT)
        self.head()
        for line in self.lines:
            self.row(line)
        self.foot(left_out)

    def head(self):
        self.text("title", 20, 36, self.title)
        self.text("small", 20, 62, "A dot is a packet: from when it may go to when it has left. Each row is as wide as the line's own bound.")
        for share, said in self.marks():
            self.text("axis", self.x(share), 96, said, "middle")
        self.top = self.height = 106

    def marks(self):
        """What the axis names; less where packets left so early that there is no room for all of it."""
        half = self.x(50) - self.x(0)
        return [*([(0, "at once")] if half > MARK_ROOM / 2 else []), *([(50, "half its bound")] if half > MARK_ROOM else []), (100, "its bound")]

    def row(self, line):
        top, bound, counts = self.height, line.bound(), self.delays.found[line]
        self.line("rule", 16, top, WIDTH - 16, top)
        self.text("label", 20, top + 20, fitted(line.name, 19, LEFT - 30), data={"line": line.name})
        self.text("small", 20, top + 39, line_words(line))
        self.rect("bound", self.x(0), top + 8, self.x(100) - self.x(0), ROW - 16, f"{line.name}: bound {bound}", {"line": line.name, "to": bound})
        self.line("deadline", self.x(100), top + 4, self.x(100), top + ROW - 4, "", {"line": line.name})
        for delay, count in sorted(counts.items()):
            late = delay > bound
            hint = f"{line.name}: {delay} ticks of {bound}, {count} packets"
            self.circle("late" if late else "delay", self.x(100 * delay / bound), top + ROW / 2, DOT, hint, {"line": line.name, "delay": delay, "count": count})
        longest = max(counts)
        self.text("longest", WIDTH - 20, top + 29, f"longest {longest} of {bound}", "end", {"line": line.name, "delay": longest, "bound": bound})
        self.height += ROW

    def foot(self, left_out):
        self.line("rule", 16, self.height, WIDTH - 16, self.height)
        self.height += 26
        said = f"{left_out} more lines are not shown; those above came closest to their bounds." if left_out else "" if self.lines else "No packet has left."
        if said:
            self.text("small", 20, self.height, said)
        self.height += 10

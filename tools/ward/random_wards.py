"""How many more pumps the finer test lets in than document 01's, over random wards of three kinds: a table, and a picture. The proved program says who is let
in (windows.py)."""

import random
import statistics
from typing import NamedTuple

from ward.figures import MOST_LINES, Gap, Levels
from ward.questions import first_refused, in_turn
from ward.svg import Drawing, Scale
from ward.windows import longest_fit

# How many more, in hundredths of what document 01's test lets in: the upper ends of what is counted together.
STEPS = (0, 10, 25, 50, 100)
# How often in a row windows are lengthened for nothing before a search is given up: oftener than any of them needs.
LONG_SEARCH = 10_000
LABELS = ("none", "up to 10 %", "up to 25 %", "up to 50 %", "up to 100 %", "more")


class Kind(NamedTuple):
    """A kind of ward: what stands in it besides the pumps that are counted, and the pumps' level."""

    name: str
    monitors: bool
    cameras: bool


KINDS = (Kind("pumps alone", False, False), Kind("pumps and monitors", True, False), Kind("pumps, monitors and cameras", True, True))


class Found(NamedTuple):
    """How many pumps each test lets in."""

    old: int
    finer: int

    def more(self):
        """How many more, in hundredths."""
        return 100 * (self.finer - self.old) / self.old


def bounds_of(numbers, second, levels):
    """Rising bounds, the first a third of a second to two seconds, each next one and a half to three times as long."""
    bounds = [int(second * numbers.uniform(0.33, 2))]
    while len(bounds) < levels:
        bounds.append(int(bounds[-1] * numbers.uniform(1.5, 3)))
    return tuple(min(bound, 32_768 - levels + place) for place, bound in enumerate(bounds))


def some_line(numbers, kind, level, second):
    """A monitor or a camera of some figures: a monitor sends two to five times a second, a camera in bursts of two to four."""
    if kind == "monitor":
        return Gap(level, int(second / numbers.uniform(2, 5)), numbers.randint(16, 48))
    packets, average = numbers.randint(2, 4), int(second * numbers.uniform(1, 2))
    packets = min(packets, 65_535 // average)
    return Gap(level, int(average / numbers.uniform(2, 6)), numbers.randint(64, 128), packets * average, average)


def some_ward(kind, seed):
    """The link of a seed, the lines that stand besides the pumps, and a pump. A line sends 600 to 6,000 units a second; a pump once in half a second to two
    seconds."""
    numbers = random.Random(f"{kind.name} {seed}")
    second, others = int(600 * 10 ** numbers.uniform(0, 1)), [name for name, has in (("monitor", kind.monitors), ("camera", kind.cameras)) if has]
    link = Levels(128, numbers.choice((0, 1, 4)), bounds_of(numbers, second, 1 + len(others)))
    pump = Gap(1, int(second * numbers.uniform(0.5, 2)), numbers.randint(8, 32))
    asking = [some_line(numbers, name, 2 + place, second) for place, name in enumerate(others) for _ in range(numbers.randint(1, max(1, second // 500)))]
    numbers.shuffle(asking)
    return link, [line for line, answer in zip(asking, in_turn(link, asking)) if answer.let_in()], pump


def found_of(kind, seed):
    """How many pumps fit into the ward of a seed, by each test; None where document 01's lets none in, or the numbers of lines stop both."""
    link, standing, pump = some_ward(kind, seed)
    lines = [*standing, *[pump] * (MOST_LINES - len(standing))]
    old = first_refused(in_turn(link, lines)) - len(standing)
    if not 0 < old < MOST_LINES - len(standing):
        return None
    return Found(old, longest_fit(link, lines, LONG_SEARCH).many - len(standing))


def wards_of(kind, many):
    """So many wards of a kind, of the first seeds that have one."""
    found, seed = [], 0
    while len(found) < many:
        one = found_of(kind, seed)
        found += [one] if one else []
        seed += 1
    return found


def row_of(kind, found):
    """A row of the table."""
    helped = sum(one.finer > one.old for one in found)
    shares = sorted(one.more() for one in found)
    old, finer = sum(one.old for one in found), sum(one.finer for one in found)
    middle, ninth = statistics.median(shares), shares[len(shares) * 9 // 10]
    shown = [f"{share:.1f} %" for share in (middle, ninth, shares[-1])]
    return f"| {kind.name} | {len(found)} | {old:,} | {finer:,} | {100 * (finer - old) / old:.1f} % | {helped} | {' | '.join(shown)} |"


HEAD = """| Wards of | How many | Pumps by document 01's test | By the finer test | More in all | Wards that gain | More, median | Each of the best tenth, at least | The best |
|---|---|---|---|---|---|---|---|---|"""


def counted(found):
    """How many wards have so many more, by LABELS."""
    counts = [0] * len(LABELS)
    for one in found:
        counts[next((place for place, most in enumerate(STEPS) if one.more() <= most), len(STEPS))] += 1
    return counts


class Gains(Drawing):
    """How many wards of each kind let how many more pumps in: a bar each."""

    def __init__(self, results):
        super().__init__(1200, "How many more pumps the finer test lets in, over random wards")
        self.text("title", 20, 36, self.title)
        self.text("small", 20, 62, "Each bar: how many of 100 wards of its kind; below it, how many more pumps than by document 01's test.")
        for place, (kind, _) in enumerate(results):
            self.rect(f"bar{place + 1} key", 20 + 370 * place, 82, 24, 16)
            self.text("legend", 52 + 370 * place, 97, kind.name)
        self.y, self.x = Scale(0, 100, 480, 130), Scale(0, len(LABELS), 70, 1180)
        for share in range(0, 101, 20):
            self.line("grid", 70, self.y(share), 1180, self.y(share))
            self.text("axis", 60, self.y(share) + 6, str(share), "end")
        for place, (kind, found) in enumerate(results):
            self.bars(place, kind, found, len(results))
        for place, label in enumerate(LABELS):
            self.text("axis", self.x(place + 0.5), 504, label, "middle")
        self.height = 520

    def bars(self, place, kind, found, many):
        width = (self.x(1) - self.x(0)) * 0.84 / many
        for step, count in enumerate(counted(found)):
            share = 100 * count / len(found)
            left = self.x(step + 0.08) + place * width
            hint, data = f"{kind.name}: {count} of {len(found)} wards, {LABELS[step]}", {"kind": kind.name, "count": count}
            self.rect(f"bar{place + 1}", left, self.y(share), width - 4, self.y(0) - self.y(share), hint, data)
            self.text("axis", left + width / 2 - 2, self.y(share) - 5, f"{share:.0f}", "middle")

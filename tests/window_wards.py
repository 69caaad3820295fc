"""Random wards with windows (R-12), for tests/instructions: connections that are let in on a link with windows and, where that is asked for, on the same link without, and newcomers whom either may refuse.

Which of them are let in the simulator tells (sim/target/release/sim). A ward is drawn from its seed alone, and nearly full: first of lines that would fill the link between them, and
where too few of these are let in of slower ones.
"""

import os
import random
import subprocess
from typing import NamedTuple

from records import ANSWERS, records
from ward.figures import LONGEST_BOUND, LONGEST_GAP, MOST_LEVELS, Gap, Levels

ROOT = os.path.dirname(os.path.dirname(os.path.abspath(__file__)))
SIM = os.path.join(ROOT, "sim", "target", "release", "sim")
# by how much slower the lines of each turn are than those of the turn before, the turns, and how many lines are drawn for each that is to stand
SLOWER, TURNS, DRAWN = 1.1, 40, 1.2


class Ward(NamedTuple):
    """A link, the lines that stand, and lines that ask to be let in besides."""

    largest: int
    silence: int
    bounds: tuple
    windows: tuple
    standing: tuple
    newcomers: tuple

    def link(self, windowed):
        return Levels(self.largest, self.silence, self.bounds, self.windows if windowed else ()).record()

    def trace(self, windowed):
        return self.link(windowed) + b"".join(line.record() for line in self.standing)

    def verdict(self, windowed, line):
        """What a newcomer is told."""
        return admissions(self.trace(windowed) + line.record())[-1]


def admissions(trace):
    """The verdicts of the admissions in a trace."""
    told = subprocess.run([SIM], input=trace, stdout=subprocess.PIPE, check=True).stdout
    return [numbers[0] for _, mark, _, numbers in records(told, ANSWERS) if mark == b"CA"]


def let_in(first, lines):
    """Those of the lines that are let in, in turn."""
    verdicts = admissions(first + b"".join(line.record() for line in lines))
    return [line for line, verdict in zip(lines, verdicts) if verdict == 0]


def some_windows(numbers, bounds):
    """Little longer than the bounds, some times as long, of any length, or the longest."""
    style = numbers.randrange(4)
    made = []
    for bound in bounds:
        window = (bound + numbers.randint(0, 400), bound * numbers.randint(1, 4), numbers.randint(bound, LONGEST_BOUND), LONGEST_BOUND)[style]
        made.append(min(window, LONGEST_BOUND))
    return tuple(made)


def some_line(numbers, ward, connections, slower):
    """A line whose share of the link is about that of one of so many connections; one in four with an average, under which it sends in bursts."""
    level, size = numbers.randint(1, len(ward.bounds)), numbers.randint(1, ward.largest)
    gap = int((size + ward.silence) * connections * slower * numbers.uniform(0.6, 2.5))
    gap = max(1, min(gap, LONGEST_GAP))
    packets = numbers.randint(2, 8)
    if numbers.randrange(4) or packets * gap > LONGEST_GAP:
        return Gap(level, gap, size, 0, 0)
    return Gap(level, max(1, gap // numbers.randint(1, 6)), size, packets * gap, gap)


def some_link(numbers, connections):
    """Bounds in which each of so many connections could send once or more."""
    largest, silence = numbers.randint(2, 24), numbers.choice((0, 0, 1, 4))
    levels, once = numbers.randint(1, MOST_LEVELS), ((1 + largest) / 2 + silence) * connections + largest + silence
    shares = [(level + 1) / levels * numbers.uniform(1.1, 2.5) for level in range(levels)]
    bounds = []
    for share in sorted(shares):
        least = max(bounds[-1] + 1 if bounds else 0, largest + silence)
        bounds.append(min(max(least, int(once * share)), LONGEST_BOUND - levels))
    return Ward(largest, silence, tuple(bounds), some_windows(numbers, bounds), (), ())


def ward(seed, standing, newcomers, both):
    """The ward of a seed with so many lines that stand, and so many newcomers; nothing where so many are not let in. Where `both` says so they stand without windows too."""
    numbers = random.Random(f"{seed} {standing} {both}")
    made = some_link(numbers, standing + 1)
    if len(set(made.bounds)) < len(made.bounds):
        return None
    slower = 1
    for _ in range(TURNS):
        drawn = [some_line(numbers, made, standing + 1, slower) for _ in range(int(DRAWN * standing) + 1)]
        if both:
            # a set of which some are left out passes as well: what is left of them below stands without windows
            drawn = let_in(made.link(False), drawn)
        lines = let_in(made.link(True), drawn)[:standing]
        if len(lines) == standing:
            asking = [some_line(numbers, made, standing + 1, slower * numbers.choice((1, SLOWER, SLOWER**4))) for _ in range(newcomers)]
            return made._replace(standing=tuple(lines), newcomers=tuple(asking))
        slower *= SLOWER
    return None


def wards(count, standing, newcomers, both):
    """So many wards, of the first seeds that have one."""
    made, seed = [], 0
    while len(made) < count:
        one = ward(seed, standing, newcomers, both)
        made += [one] if one else []
        seed += 1
        if seed > 20 * count + 20:
            raise LookupError(f"of {seed} seeds {len(made)} give a ward of {standing}")
    return made

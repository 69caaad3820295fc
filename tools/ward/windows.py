"""Windows (R-12) that let lines in, found by asking the proved program.

Each level of the finer test looks at its own window alone. A window in which too much is sent by so many units is too short by at least as many: what is sent
within a window never falls as it grows. And a level that is short at a moment within its window stays so with a longer one. So from windows at the bounds on,
each refusal lengthens the window of its level by the units that it names, until all are let in, or a moment is short, or the window is longer than any may
be: no windows that would do are passed over. What is found are the least.
"""

from typing import NamedTuple

from ward.figures import LONGEST_BOUND, Levels
from ward.questions import Answer, first_refused, in_turn, loads, sums
from ward.verdicts import SHORT

# How often in a row windows are lengthened and nobody more is let in, before the search is given up; and how many lines are asked for behind the last that
# was let in.
MOST_IDLE, AHEAD = 100, 24


class Fit(NamedTuple):
    """The first of some lines that are let in, with which windows; what the next one is told, None where there is none; and whether the search was given
    up."""

    many: int
    windows: tuple
    next: Answer
    given_up: bool = False


def sum_alone(link, ticks, line):
    """What a line alone sends within so many ticks, and one packet more: on a link of one level with that bound, as its refusal tells, or as the flood tells
    beside it. None where more places would be reserved than there are."""
    alone = Levels(link.largest, link.silence, (ticks,))
    line = line._replace(level=1)
    answer = in_turn(alone, [line])[0]
    if answer.verdict == SHORT:
        return ticks + answer.units
    return sums(alone, [line])[0] if answer.let_in() else None


def moment_is_short(link, standing, newcomer, answer):
    """Whether a refusal with 8 is that of a moment within the window: what all send within the window, and one packet more, is not over by the units that
    were told."""
    window, load = link.windows[answer.level - 1], loads(link, standing)[answer.level - 1]
    alone = sum_alone(link, window, newcomer)
    return alone is not None and load + alone - window != answer.units


def looked_at(idle):
    """Whether a turn that lets no more in is looked at closely: the first, the second, the fourth and so on, since looking costs more than a turn."""
    return idle > 0 and idle & (idle - 1) == 0


def longest_fit(link, lines, most_idle=MOST_IDLE):
    """How many of the lines, from the first on, any windows let in, and the least windows that do."""
    windows, best, reach, idle = list(link.bounds), Fit(-1, (), None), 0, 0
    while idle < most_idle:
        tried = link._replace(windows=tuple(windows))
        # the first that is refused is all that matters: those far behind it are not asked for
        told = in_turn(tried, lines[:reach + AHEAD])
        many = first_refused(told)
        reach = max(reach, many)
        if many == len(lines):
            return Fit(many, tried.windows, None)
        if many == len(told):
            continue
        answer = told[many]
        idle, best = (0, Fit(many, tried.windows, answer)) if many > best.many else (idle + 1, best)
        if answer.verdict != SHORT or (looked_at(idle) and moment_is_short(tried, lines[:many], lines[many], answer)):
            return best
        windows[answer.level - 1] += answer.units
        if windows[answer.level - 1] > LONGEST_BOUND:
            return best
    return best._replace(given_up=True)

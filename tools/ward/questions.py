"""Questions to the proved program: who is let in, beside whom, and what follows from the answers by differences and by search.

A question is a trace of a fresh link and admissions. A line that has not sent is freed by its close at once (R-8), so that on a link of levels many questions
go into one run: each newcomer is asked for beside what stands, and closed again. Nothing here knows how a level's sum is counted.
"""

import functools
from typing import NamedTuple

from ward import records
from ward.ends import cannot_read
from ward.figures import LONGEST_BOUND, LONGEST_GAP, MOST_LINES, MOST_PLACES, MOST_SILENCE, Gap, Levels
from ward.program import answers
from ward.verdicts import DONE, words

# How many values a search asks for in one run.
AT_ONCE = 16


class Answer(NamedTuple):
    """What an admission is told."""

    verdict: int
    number: int
    level: int
    units: int

    def let_in(self):
        return self.verdict == DONE


def asked(link, more):
    """The answers to admissions behind a link that is accepted. Raises Ended where the link is refused."""
    told = list(records.records(answers(link.record() + b"".join(more)), records.ANSWERS))
    verdict = told[0][3][0]
    if verdict != DONE:
        raise cannot_read(link.words(), f"the link is refused: {words(verdict)} (verdict {verdict})")
    return [Answer(*numbers) for _, mark, _, numbers in told if mark == b"CA"]


def must_stand(ward):
    """Raises Ended, with the place of the link in its file, where the link of a ward is refused."""
    _, _, _, numbers = next(records.records(answers(ward.link.record()), records.ANSWERS))
    if numbers[0] != DONE:
        raise cannot_read(ward.link_place, f"it is refused: {words(numbers[0])} (verdict {numbers[0]}): {ward.link.limits()}")


def in_turn(link, lines):
    """What each of the lines is told, asked for one after another."""
    return asked(link, [line.record() for line in lines])


def first_refused(told):
    """The place of the first admission that is refused, the number of all where none is."""
    return next((place for place, answer in enumerate(told) if not answer.let_in()), len(told))


def beside(link, standing, newcomers):
    """What each newcomer is told beside the lines that stand, which all are let in, and nobody else; of a link of levels."""
    again = records.close(len(standing)) if len(standing) < MOST_LINES else b""
    told = asked(link, [line.record() for line in standing] + [line.record() + again for line in newcomers])
    return told[len(standing):]


def least(low, high, holds):
    """The least number from low to high of which something holds, where it then holds of every greater one too; None where it does not hold of high. `holds`
    is asked of several numbers at once."""
    if low > high or not holds([high])[0]:
        return None
    while low < high:
        step = -(-(high - low) // (AT_ONCE + 1))
        values = list(range(low, high, step))
        found = holds(values)
        first = found.index(True) if True in found else len(values)
        low, high = (values[first - 1] + 1 if first else low), (values[first] if first < len(values) else high)
    return low


def greatest(low, high, holds):
    """The greatest such number, where it holds of every lesser one too."""
    mirrored = least(-high, -low, lambda values: holds([-value for value in values]))
    return None if mirrored is None else -mirrored


@functools.lru_cache(maxsize=None)
def set_aside(largest, silence):
    """What every level sets aside for one packet of the largest size: the least bound with which the program accepts a link. The bounds are asked for in one
    run, the least first; the first that is accepted stays."""
    tried = range(largest, largest + MOST_SILENCE + 1)
    told = records.records(answers(b"".join(records.link(largest, silence, [bound]) for bound in tried)), records.ANSWERS)
    return next(bound for bound, (_, _, _, numbers) in zip(tried, told) if numbers[0] == DONE)


def flood(link, level):
    """A line that no level takes: a packet of the largest size in every tick. Its answer names its own level, and how many units that is over."""
    return Gap(level, 1, link.largest)


def loads(link, standing):
    """What the lines that stand add to the sum of each level: what the flood of that level is over beside them, less what it is over alone. Where nobody more
    can be asked for, by halves."""
    if len(standing) == MOST_LINES:
        half = MOST_LINES // 2
        return [first + second for first, second in zip(loads(link, standing[:half]), loads(link, standing[half:]))]
    floods = [flood(link, level) for level in link.levels()]
    alone, among = beside(link, [], floods), beside(link, standing, floods)
    return [with_them.units - without.units for with_them, without in zip(among, alone)]


def sums(link, standing):
    """The sum of each level within its bound, on a link with windows within its window."""
    aside = set_aside(link.largest, link.silence)
    return [aside + load for load in loads(link, standing)]


def fillers(level):
    """Lines that reserve 1,024, 512, .. and 1 place at a level whose bound is the longest, each with that number."""
    return {places: Gap(level, LONGEST_BOUND // places, 1) for places in (2**power for power in reversed(range(MOST_PLACES.bit_length() - 1)))}


def places_at(bound, lines):
    """How many places are reserved for each of some lines of a level with this bound: 2,048 less what can be reserved beside it alone. The lines that fill the table ask in turn, the largest first, and get 9 where too few places
    are left. The link has the smallest packets and a long bound besides, so that no level is short: places do not hang on sizes."""
    link = Levels(1, 0, (bound, LONGEST_BOUND) if bound < LONGEST_BOUND else (bound,))
    filling = fillers(len(link.bounds))
    again = b"".join(line.record() for line in filling.values()) + b"".join(records.close(number) for number in range(len(filling) + 1))
    told = asked(link, [line._replace(level=1, size=1).record() + again for line in lines])
    each = len(filling) + 1
    return [MOST_PLACES - sum(number for number, answer in zip(filling, told[at + 1:at + each]) if answer.let_in()) for at in range(0, len(told), each)]


def places(link, lines):
    """How many places are reserved for each of some lines, each of which is let in."""
    found = {}
    for level in link.levels():
        distinct = sorted({line for line in lines if line.level == level})
        found.update(zip(distinct, places_at(link.bounds[level - 1], distinct) if distinct else ()))
    return [found[line] for line in lines]


def slow(level, size):
    """A line that sends once in a while: no window counts more than one packet of it."""
    return Gap(level, LONGEST_GAP, size)


def room_for_slow(link, standing):
    """For each level the largest packet of a slow line that would be let in; 0 where not even the smallest would."""
    return [greatest(1, link.largest, lambda sizes, level=level: let_in(link, standing, [slow(level, size) for size in sizes])) or 0 for level in link.levels()]


def let_in(link, standing, newcomers):
    """Whether each newcomer would be let in beside the lines that stand."""
    return [answer.let_in() for answer in beside(link, standing, newcomers)]

"""`ward plan`: who of a ward is let in, and what is to spare. Every number is the proved program's answer, a difference of its answers, or found by asking it
again (questions.py)."""

from itertools import groupby
from typing import NamedTuple

from ward.advice import fit_lines, help_lines
from ward.ends import DONE, NO
from ward.figures import MOST_LINES, MOST_PLACES, Levels
from ward.frames import to_spare
from ward.questions import Answer, in_turn, must_stand, places, room_for_slow, sums
from ward.tables import table
from ward.verdicts import refusal
from ward.wards import Pump

FIGURES = ["level", "gap", "size", "window", "average", "allowance", "units", "places"]
AVERAGE = ("window", "average")


class Asked(NamedTuple):
    """A pump of a ward, what it was told, and how many places are reserved for it, None where it was refused."""

    pump: Pump
    answer: Answer
    reserved: int

    def alike(self):
        """Pumps in a row that have this in common share a row of the table."""
        return self.pump.figures, self.answer.verdict, self.answer.level, self.answer.units


def ask(ward):
    """All pumps of a ward, asked for in turn."""
    must_stand(ward)
    told = in_turn(ward.link, [pump.figures for pump in ward.pumps])
    standing = [pump.figures for pump, answer in zip(ward.pumps, told) if answer.let_in()]
    reserved = iter(places(ward.link, standing) if isinstance(ward.link, Levels) else [line.places for line in standing])
    return [Asked(pump, answer, next(reserved) if answer.let_in() else None) for pump, answer in zip(ward.pumps, told)]


def standing_of(asked):
    return [each.pump.figures for each in asked if each.answer.let_in()]


def span(first, last):
    return f"{first}" if first == last else f"{first} to {last}"


def pump_row(group, framed):
    """A row for pumps in a row that are alike. On a link of frames a pump names its places itself."""
    first, last = group[0], group[-1]
    figures = first.pump.figures._asdict()
    if not any(figures.get(name) for name in AVERAGE):
        figures.update(dict.fromkeys(AVERAGE, ""))
    row = [span(first.pump.name, last.pump.name), len(group) if len(group) > 1 else "", *(figures.get(name, "") for name in FIGURES)]
    if not first.answer.let_in():
        return [*row, "-", "" if framed else "-", f"refused: {refusal(first.answer)}"]
    return [*row, span(first.answer.number, last.answer.number), "" if framed else first.reserved, "let in"]


def pump_lines(asked, framed, each):
    """The table of the pumps, a row for each or for those that are alike."""
    groups = [[one] for one in asked] if each else [list(group) for _, group in groupby(asked, Asked.alike)]
    return table(["pump", "many", *FIGURES, "number", "reserved", "answer"], [pump_row(group, framed) for group in groups])


def level_lines(link, standing):
    """A row for each level; on a link with windows the sum is that of the window."""
    rows = [
        [level, link.bounds[level - 1], link.windows[level - 1] if link.windows else "", total, link.within(level) - total, slow]
        for level, total, slow in zip(link.levels(), sums(link, standing), room_for_slow(link, standing))
    ]
    return table(["level", "bound", "window", "sum", "to spare", "slow line"], rows)


def frame_lines(link, standing):
    """The row of a frame."""
    spare = to_spare(link, standing)
    return table(["frame", "sum", "to spare"], [[link.length, link.length - spare, spare]])


def total_line(asked):
    reserved = sum(each.reserved for each in asked if each.answer.let_in())
    return f"{len(standing_of(asked))} of {len(asked)} pumps are let in; {MOST_LINES} may stand. {reserved} of {MOST_PLACES} places are reserved."


def refused_kinds(asked):
    """One of each kind of pump that is refused, with how many of it are."""
    kinds = {}
    for each in asked:
        if not each.answer.let_in():
            kinds.setdefault(each.pump.figures, []).append(each)
    return [(group[0], len(group)) for group in kinds.values()]


def plan(ward, each=False, fit=None):
    """The lines of a plan, and the exit status: whether all are let in."""
    framed, asked = not isinstance(ward.link, Levels), ask(ward)
    standing = standing_of(asked)
    lines = [f"Link: {ward.link.words()}.", "", *(pump_lines(asked, framed, each) if asked else ["The ward has no pumps."]), ""]
    lines += [*(frame_lines(ward.link, standing) if framed else level_lines(ward.link, standing)), "", total_line(asked)]
    for one, many in refused_kinds(asked):
        others = f" (and {many - 1} more like it)" if many > 1 else ""
        lines += ["", f"What would let {one.pump.name}{others} in, beside those that are let in, each by itself:"]
        lines += help_lines(ward.link, standing, one.pump.figures, one.answer)
    if fit is not None:
        lines += ["", *fit_lines(ward, standing, fit)]
    return lines, DONE if len(standing) == len(asked) else NO

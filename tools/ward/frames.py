"""Questions about a link of frames (R-13). Lines don't close there, so that each question is a run of its own, or asks for what is refused first."""

from ward.figures import MOST_LINES, Share
from ward.questions import first_refused, in_turn
from ward.verdicts import SHORT

# A line of as many units as one may have, and how many of them a frame can hold at most with one more to be refused.
LARGE, MOST_LARGE = Share(2_048, 1), 17


def free_units(link, standing):
    """The units of a frame that are free beside the lines that stand: large lines ask in turn, and the first that is refused tells how many of its units are
    over."""
    # how many places a line has does not matter to the units
    told = in_turn(link, [line._replace(places=1) for line in standing] + [LARGE] * MOST_LARGE)[len(standing):]
    large = first_refused(told)
    assert told[large].verdict == SHORT
    return LARGE.units * (large + 1) - told[large].units


def to_spare(link, standing):
    """The free units of a frame; where too few numbers are left to ask for large lines, by halves."""
    if len(standing) + MOST_LARGE <= MOST_LINES:
        return free_units(link, standing)
    half = len(standing) // 2
    return to_spare(link, standing[:half]) + to_spare(link, standing[half:]) - free_units(link, [])


def first_let_in(link, standing, newcomers):
    """The first of some newcomers that is let in beside the lines that stand, None where none is."""
    told = in_turn(link, [*standing, *newcomers])[len(standing):]
    return next((line for line, answer in zip(newcomers, told) if answer.let_in()), None)


def fewer(link, standing, line):
    """What would let a refused line in: the most units that would do, and the most places, each None where none would."""
    units = first_let_in(link, standing, [line._replace(units=units) for units in range(line.units - 1, 0, -1)])
    places = first_let_in(link, standing, [line._replace(places=places) for places in range(line.places - 1, 0, -1)])
    return units and units.units, places and places.places

"""What would let a refused pump in, and how many more of a pump fit: by asking the proved program for one that is changed, or for one more."""

from ward.ends import WRONG_USE, Ended
from ward.figures import LONGEST_GAP, MOST_LINES, Levels, Share
from ward.frames import fewer
from ward.questions import first_refused, greatest, in_turn, least, let_in
from ward.verdicts import FULL, PLACES, SHORT, refusal
from ward.wards import read_figures
from ward.windows import longest_fit


def list_of(numbers):
    return " ".join(map(str, numbers))


def longer_gap(link, standing, line):
    """The least longer gap that would do. With an average the gap is at most the average gap."""
    most = getattr(line, "average", 0) or LONGEST_GAP
    return least(line.gap + 1, most, lambda gaps: let_in(link, standing, [line._replace(gap=gap) for gap in gaps]))


def smaller_size(link, standing, line):
    """The greatest smaller size that would do."""
    return greatest(1, line.size - 1, lambda sizes: let_in(link, standing, [line._replace(size=size) for size in sizes]))


def lower_urgency(link, standing, line):
    """The most urgent of the less urgent levels that would do."""
    levels = range(line.level + 1, len(link.bounds) + 1)
    found = let_in(link, standing, [line._replace(level=level) for level in levels])
    return next((level for level, good in zip(levels, found) if good), None)


def windows_line(link, standing, line):
    """The least windows that would do, in words."""
    fit = longest_fit(link, [*standing, line])
    if fit.many > len(standing):
        return list_of(fit.windows)
    return "none was found" if fit.given_up else "none would do"


def help_lines(link, standing, line, answer):
    """What would let a line in that was refused with this answer, a line of text for each way."""
    if answer.verdict not in (SHORT, PLACES):
        return ["  one fewer of the others" if answer.verdict == FULL else f"  other figures: {refusal(answer)}"]
    if isinstance(line, Share):
        units, places = fewer(link, standing, line)
        ways = [("fewer units", units), ("fewer places", places)]
    else:
        ways = [("a longer gap", longer_gap(link, standing, line)), ("a smaller size", smaller_size(link, standing, line))]
        ways += [("a less urgent level", lower_urgency(link, standing, line)), ("windows (R-12)", windows_line(link, standing, line))]
    return [f"  {way:<20} {'none would do' if found is None else found}" for way, found in ways]


def pump_to_fit(ward, named):
    """The figures that --fit names: those of a pump of the ward, or figures as in its file."""
    for pump in ward.pumps:
        if pump.name == named:
            return pump.figures
    if len(named.split()) < 2:
        raise Ended(f"--fit: the ward has no pump {named!r}; figures are given as in the file: 'level 1 gap 40 size 4'", WRONG_USE)
    try:
        figures = read_figures(named)
    except Ended as end:
        raise Ended(str(end), WRONG_USE) from None
    if isinstance(figures, Share) == isinstance(ward.link, Levels):
        asked = "levels has level, gap and size" if isinstance(ward.link, Levels) else "frames has units and places"
        raise Ended(f"--fit: {named}: a pump of a link of {asked}", WRONG_USE)
    return figures


def stop_words(answer):
    return "no more may stand" if answer is None else f"the next: {refusal(answer)}"


def old_fit(link, standing, line):
    """How many more by the test of a link as it is, in words; where the link lets not even those in that stand, that is said."""
    told = in_turn(link, [*standing, *[line] * (MOST_LINES - len(standing) + 1)])
    many = first_refused(told)
    if many < len(standing):
        return f"not even those that are let in: only the first {many} of them"
    return f"{many - len(standing)} more; {stop_words(told[many])}"


def finer_fit(link, standing, line):
    """How many more by the finer test, with the windows that let most in, in words."""
    fit = longest_fit(link, [*standing, *[line] * (MOST_LINES - len(standing) + 1)])
    given_up = "; the search was given up there" if fit.given_up else ""
    return f"{fit.many - len(standing)} more, with windows {list_of(fit.windows)}; {stop_words(fit.next)}{given_up}"


def fit_lines(ward, standing, named):
    """How many more of a pump fit beside those that are let in."""
    line = pump_to_fit(ward, named)
    lines = [f"More pumps like {named} ({line.words()}) beside the {len(standing)} that are let in:"]
    if isinstance(line, Share):
        return [*lines, f"  {old_fit(ward.link, standing, line)}"]
    plain = ward.link._replace(windows=())
    ways = [("document 01's test", old_fit(plain, standing, line)), ("the finer test", finer_fit(plain, standing, line))]
    if ward.link.windows:
        ways.insert(1, ("this link's windows", old_fit(ward.link, standing, line)))
    return lines + [f"  {way:<20} {found}" for way, found in ways]

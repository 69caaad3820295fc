"""`ward run`: what became of each line, as a table."""

from ward.ends import DAMAGED, DONE
from ward.tables import table
from ward.verdicts import words

HEADS = ["line", "number", "figures", "offered", "accepted", "refused", "departed", "held", "longest delay", "bound", "broke its word"]


def row(line):
    """The row of a line; what nothing is promised of has no bound, and no word to break."""
    refused = sum(line.refused.values())
    figures = line.figures.words() if line.figures else ""
    longest = "-" if line.longest is None else line.longest
    kept = [line.bound(), line.broken] if line.figures else ["-", "-"]
    return [line.name, line.number, figures, line.accepted + refused, line.accepted, refused, line.departed, len(line.held), longest, *kept]


def times(count):
    return "once" if count == 1 else f"{count} times"


def refusal_rows(history):
    """Of each line its refused offers by verdict; then what else was refused, together where it is the same."""
    for line in history.all_lines():
        yield from ([line.name, times(count), f"verdict {verdict}", words(verdict)] for verdict, count in sorted(line.refused.items()))
    yield from ([what, times(count), f"verdict {verdict}", words(verdict)] for (what, verdict), count in history.refused.items())


def late_lines(history):
    """A packet that left too late: no log of the program has one."""
    why = "later than its bound; ward check tells where this log is not the one that the rules give"
    return [f"{line.name}: {times(line.late)} {why}" for line in history.lines if line.late]


def summary(history):
    """The lines of a summary, and the exit status."""
    link = history.link.words() if history.link else "none"
    lines = [f"Link: {link}.", f"{history.records} records, up to tick {history.clock}.", ""]
    lines += table(HEADS, [row(line) for line in history.all_lines()]) if history.all_lines() else ["No line was let in, and nobody sent."]
    refusals = list(refusal_rows(history))
    lines += ["", "Refused:", *(f"  {line}" for line in table(["who", "how often", "with", "why"], refusals))] if refusals else ["", "Nothing was refused."]
    lines += ["", *late_lines(history)] if late_lines(history) else []
    if history.damage:
        lines += ["", f"The trace is damaged at byte {history.damage.at}, in its record {history.records + 1}: {history.damage.why}. All up to there was run."]
    return lines, DAMAGED if history.damage else DONE

"""`ward text` and `ward bytes`: records as text, a line each, and that text as bytes again, byte for byte.

    PK offer     connection 1, length 8, tag 903
    PA offered   verdict 12, eligibility 0    # it holds as many packets as places are reserved for it
    ?? 4C 4B 09

A line begins with the record's mark and its name, which may be left out; then come the fields, in any order. What a `CN` has no average for and what a `CA`
has no short level for is left out, and is 0. A link has its bounds and windows in lists, which tell how many levels it has. A line with ?? has bytes that are
no record: from damage on, all that is left. What stands behind a # is for people.
"""

import functools
import re

from ward.ends import DAMAGED, Ended, cannot_read
from ward.records import ANSWERS, KINDS, MOST_LEVELS, PER_LEVEL, PIECE, TRACE, CannotRead, form_of, records_in
from ward.verdicts import words

# Bytes that are no record, so many to a line.
RAW, RAW_BYTES = "??", 32
# How many lines are kept that have been made: in a long trace many are the same.
KEPT = 4_096
# Fields that are left out where all of them are 0, and then are 0.
LEFT_OUT = {b"CN": ("window", "average"), b"CA": ("level", "units")}
PLURAL = {"bound": "bounds", "window": "windows"}


def fields_with(mark, numbers):
    """The fields of a record with these numbers: the first number of a link is that of its levels."""
    return form_of(mark, numbers[0] if mark in PER_LEVEL else 0)[0]


def shown_fields(mark, numbers):
    """The fields of a record as text, in the order of its layout; those of the levels in lists."""
    pairs = [(name, number) for (name, _), number in zip(fields_with(mark, numbers), numbers) if mark not in PER_LEVEL or name != "levels"]
    left_out = LEFT_OUT.get(mark, ())
    if not any(number for name, number in pairs if name in left_out):
        pairs = [(name, number) for name, number in pairs if name not in left_out]
    lists = {what: [] for what in PER_LEVEL.get(mark, ())}
    for name, number in pairs:
        if name.split()[0] in lists:
            lists[name.split()[0]].append(str(number))
    single = [f"{name} {number}" for name, number in pairs if name.split()[0] not in lists]
    return ", ".join(single + [f"{PLURAL[what]} {' '.join(given)}" for what, given in lists.items()])


def plain(mark, numbers):
    """A record in words, within a sentence."""
    return f"{mark.decode()} {KINDS[mark][0]} {shown_fields(mark, numbers)}"


@functools.lru_cache(maxsize=KEPT)
def shown(mark, numbers):
    """A record as a line of text. What a refusal means is told behind it."""
    line = f"{mark.decode()} {KINDS[mark][0]:<9} {shown_fields(mark, numbers)}"
    verdict = numbers[0] if mark in ANSWERS and mark != b"DP" else 0
    return f"{line}    # {words(verdict)}" if verdict else line


def kinds_of(first):
    """Whether bytes that begin so are a trace or a log: by the first mark. Bytes with no mark of either count as a trace."""
    return ANSWERS if first[:2] in ANSWERS else TRACE


def raw_lines(file):
    """All bytes of a file, as lines of bytes that are no record."""
    while more := file.read(PIECE // RAW_BYTES * RAW_BYTES):
        for at in range(0, len(more), RAW_BYTES):
            yield f"{RAW} {more[at:at + RAW_BYTES].hex(' ').upper()}"


def text_lines(path, file, kinds):
    """The lines of a file of records that can be read twice, under its name. From damage on its bytes are shown as they are; then the damage is raised, as the
    end, behind the last line."""
    try:
        for _, mark, _, numbers in records_in(file, kinds):
            yield shown(mark, numbers)
    except CannotRead as damage:
        yield f"# damaged from byte {damage.at} on: {damage.why}"
        file.seek(damage.at)
        yield from raw_lines(file)
        raise Ended(f"{path}: damaged: {damage}", DAMAGED) from None


def put_off(lines, damages):
    """Lines whose damage, which comes behind the last of them, is put down in place of being raised."""
    try:
        yield from lines
    except Ended as damage:
        damages.append(damage)


def together(trace, log):
    """Each record of a trace, and under it, four spaces in, what the log answers to it: all departures up to its `TA` for a `TK`, one answer for any other.
    What is left of the log comes last, and then damage is raised. Of each its name and the file."""
    damages = []
    answers = put_off(text_lines(*log, ANSWERS), damages)
    for line in put_off(text_lines(*trace, TRACE), damages):
        yield line
        if line.startswith(("#", RAW)):
            continue
        for answer in answers:
            yield f"    {answer}"
            if not (line.startswith("TK") and answer.startswith("DP")):
                break
    yield from (f"    {answer}" for answer in answers)
    if damages:
        raise damages[0]


class Unclear(Exception):
    """A line that is no record: where in the line, and why."""


def field_numbers(mark, text):
    """The fields that a line names, each with its numbers."""
    name, named = KINDS[mark][0], {}
    text = text.removeprefix(name) if re.match(rf"{re.escape(name)}(\s|$)", text) else text
    for part in filter(None, (part.strip() for part in text.split(","))):
        field, *numbers = part.split()
        if not numbers or not all(number.isascii() and number.isdigit() for number in numbers):
            raise Unclear(mark.decode(), f"a field and its number, please, and not {part!r}")
        if field in named:
            raise Unclear(f"{mark.decode()}: {field}", "it stands here twice")
        named[field] = [int(number) for number in numbers]
    return named


def levels_named(mark, named):
    """Puts the numbers of a link's levels down as fields of their own; how many levels it has."""
    lists = [named.pop(PLURAL[what], []) for what in PER_LEVEL.get(mark, ())]
    if not lists:
        return 0
    levels = len(lists[0])
    if "levels" in named:
        raise Unclear(f"{mark.decode()}: levels", "its bounds tell how many there are")
    if not 1 <= levels <= MOST_LEVELS or any(len(given) != levels for given in lists):
        raise Unclear(f"{mark.decode()}: bounds", f"1 to {MOST_LEVELS} of them, please, and as many windows where it has any")
    named["levels"] = [levels]
    for what, given in zip(PER_LEVEL[mark], lists):
        named.update({f"{what} {level}": [number] for level, number in enumerate(given, 1)})
    return levels


def record_of(mark, text):
    """The bytes of a record from the text behind its mark."""
    named = field_numbers(mark, text)
    fields, form = form_of(mark, levels_named(mark, named))
    named.update({field: [0] for field in LEFT_OUT.get(mark, ()) if field not in named})
    for field, width in fields:
        where = f"{mark.decode()}: {field}"
        if len(named.get(field, ())) != 1:
            raise Unclear(where, "it is missing" if field not in named else "one number, please")
        if named[field][0] >= 256**width:
            raise Unclear(where, f"{named[field][0]} is more than {256**width - 1}")
    if unknown := sorted(set(named) - {field for field, _ in fields}):
        raise Unclear(mark.decode(), f"it has no field {unknown[0]!r}, but {', '.join(field for field, _ in fields)}")
    return mark + form.pack(*(named[field][0] for field, _ in fields))


@functools.lru_cache(maxsize=KEPT)
def bytes_of(line):
    """The bytes of a line of text; none where it has nothing but what is for people. Raises Unclear."""
    words = line.split("#")[0].split(None, 1)
    if not words:
        return b""
    mark, rest = words[0], "".join(words[1:])
    if mark == RAW:
        try:
            return bytes.fromhex(rest)
        except ValueError:
            raise Unclear(RAW, f"bytes as pairs of hexadecimal digits, please, and not {rest.strip()[:40]!r}") from None
    if mark.encode() not in KINDS:
        raise Unclear("", f"no record has the mark {mark!r}")
    return record_of(mark.encode(), rest.strip())


def bytes_lines(path, lines, only=None):
    """The bytes of each line of a text; of one that has trace and log together only the trace's, or only the log's, which stand four spaces in."""
    for number, line in enumerate(lines, 1):
        if only is None or line.startswith(" ") == (only == "log"):
            try:
                yield bytes_of(line)
            except Unclear as unclear:
                where, why = unclear.args
                raise cannot_read(f"{path}:{number}" + (f": {where}" if where else ""), why) from None

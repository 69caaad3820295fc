"""The layouts of the trace and answer records, and nothing else: every script that reads or writes records takes them from here."""

import functools
import io
import struct

# Of each mark its name in print and the fields behind it, each with its width in bytes. A link has numbers for each level besides (PER_LEVEL).
TRACE = {
    b"LK": ("link", [("levels", 1), ("largest", 2), ("silence", 1)]),
    b"LE": ("link with setting", [("levels", 1), ("largest", 2), ("silence", 1), ("setting", 1)]),
    b"LW": ("link with windows", [("levels", 1), ("largest", 2), ("silence", 1), ("setting", 1)]),
    b"LF": ("link of frames", [("frame", 2), ("largest", 2), ("silence", 1)]),
    b"CN": ("admit", [("level", 1), ("gap", 2), ("size", 2), ("window", 2), ("average", 2)]),
    b"CS": ("admit by stamps", [("level", 1), ("gap", 2), ("size", 2), ("allowance", 2)]),
    b"CF": ("admit with units", [("units", 2), ("places", 2)]),
    b"CL": ("close", [("connection", 1)]),
    b"PK": ("offer", [("connection", 1), ("length", 2), ("tag", 4)]),
    b"PS": ("offer with stamp", [("connection", 1), ("length", 2), ("tag", 4), ("stamp", 4)]),
    b"NQ": ("notice", [("length", 2), ("tag", 4)]),
    b"TK": ("ticks", [("asked", 2)]),
}
ANSWERS = {
    b"LA": ("linked", [("verdict", 1)]),
    b"CA": ("admitted", [("verdict", 1), ("connection", 1), ("level", 1), ("units", 4)]),
    b"CD": ("closed", [("verdict", 1)]),
    b"PA": ("offered", [("verdict", 1), ("eligibility", 4)]),
    b"NA": ("noticed", [("verdict", 1), ("eligibility", 4)]),
    b"DP": ("departed", [("connection", 1), ("tag", 4), ("arrival", 4), ("eligibility", 4), ("finish", 4)]),
    b"TA": ("ticked", [("verdict", 1), ("done", 2)]),
    b"ER": ("malformed", [("verdict", 1), ("offset", 4)]),
}
KINDS = {**TRACE, **ANSWERS}
# What each record of a trace is answered with; before its `TA` a `TK` has a `DP` for each departure, and in the place of any answer an `ER` ends a log.
ANSWERED = {b"LK": b"LA", b"LE": b"LA", b"LW": b"LA", b"LF": b"LA", b"CN": b"CA", b"CS": b"CA", b"CF": b"CA", b"CL": b"CD", b"PK": b"PA", b"PS": b"PA", b"NQ": b"NA", b"TK": b"TA"}
# Of each link's mark what it has for each level, two bytes each: first all bounds, then all windows.
PER_LEVEL = {b"LK": ("bound",), b"LE": ("bound",), b"LW": ("bound", "window")}
MOST_LEVELS = 8
# The longest record, an `LW` of eight levels; how much of a file is read at a time.
LONGEST, PIECE = 39, 65_536
CODES = {1: "B", 2: "H", 4: "I"}
CUT_SHORT = "it is cut short"


class CannotRead(Exception):
    """Bytes that are no list of records: why, and where that can be said from which place on."""

    def __init__(self, why, at=None):
        super().__init__(why if at is None else f"no record at byte {at}: {why}")
        self.why, self.at = why, at


def layout(fields):
    """What `struct` calls some fields."""
    return "<" + "".join(CODES[width] for _, width in fields)


def fields_of(mark, levels):
    """The fields of a record, a link's with what it has for each of so many levels."""
    _, fields = KINDS[mark]
    return fields + [(f"{what} {level}", 2) for what in PER_LEVEL.get(mark, ()) for level in range(1, levels + 1)]


def fields_at(data, at, kinds):
    """The name and the fields of the record at a place; no name where the mark is none of these kinds', or a link has no such number of levels."""
    mark = data[at:at + 2]
    name, fields = kinds.get(mark, (None, []))
    if mark not in PER_LEVEL or name is None or at + 2 >= len(data):
        return name, fields
    levels = data[at + 2]
    return (name, fields_of(mark, levels)) if 1 <= levels <= MOST_LEVELS else (None, [])


@functools.lru_cache(maxsize=None)
def form_of(mark, levels):
    """The fields of a record, and what packs and unpacks them."""
    fields = fields_of(mark, levels)
    return fields, struct.Struct(layout(fields))


def record_at(data, at, kinds, began=0):
    """The record at a place of bytes that began at some offset: its fields, what unpacks them, and its end. Raises CannotRead where there is none."""
    mark = data[at:at + 2]
    if mark not in kinds:
        raise CannotRead(CUT_SHORT if len(mark) < 2 else f"no record has the mark {mark.hex(' ').upper()}", began + at)
    levels = 0
    if mark in PER_LEVEL and at + 2 < len(data):
        levels = data[at + 2]
        if not 1 <= levels <= MOST_LEVELS:
            raise CannotRead(f"a link with {levels} levels", began + at)
    fields, form = form_of(mark, levels)
    end = at + 2 + form.size
    if end > len(data):
        raise CannotRead(CUT_SHORT, began + at)
    return fields, form, end


def records_in(file, kinds):
    """The records of a file in order, each as its place, its mark, its fields and their numbers; raises CannotRead at bytes that are none. No more than a
    piece of the file is kept."""
    data, began, at, whole = b"", 0, 0, False
    while not whole or at < len(data):
        if len(data) - at < LONGEST and not whole:
            more = file.read(PIECE)
            data, began, at, whole = data[at:] + more, began + at, 0, not more
            continue
        fields, form, end = record_at(data, at, kinds, began)
        yield began + at, data[at:at + 2], fields, form.unpack_from(data, at + 2)
        at = end


def records(data, kinds):
    """The records of some bytes, as those of a file."""
    return records_in(io.BytesIO(data), kinds)


def written(mark, *numbers):
    """A record, from its mark and the numbers of its fields."""
    return mark + struct.pack(layout(KINDS[mark][1]), *numbers)


def link(largest, silence, bounds, setting=None, windows=None):
    """A link; an `LE` where it has a setting, 1: its stand-by queue is on, 0: off; an `LW` where it has windows besides, as many as bounds."""
    if windows is not None:
        head = written(b"LW", len(bounds), largest, silence, setting or 0)
    elif setting is not None:
        head = written(b"LE", len(bounds), largest, silence, setting)
    else:
        head = written(b"LK", len(bounds), largest, silence)
    return head + b"".join(struct.pack("<H", number) for number in (*bounds, *(windows or ())))


def framing(frame, largest, silence):
    """A link of frames."""
    return written(b"LF", frame, largest, silence)


def admit(level, gap, size, window=0, average=0):
    """A connection; window and average gap are both 0 where it has no average."""
    return written(b"CN", level, gap, size, window, average)


def admit_stamped(level, gap, size, allowance):
    """A connection by stamps."""
    return written(b"CS", level, gap, size, allowance)


def share(units, places):
    """A connection on a line with frames."""
    return written(b"CF", units, places)


def close(connection):
    return written(b"CL", connection)


def offer(connection, length, tag):
    return written(b"PK", connection, length, tag)


def offer_stamped(connection, length, tag, stamp):
    return written(b"PS", connection, length, tag, stamp)


def notice(length, tag):
    return written(b"NQ", length, tag)


def ticks(count):
    return written(b"TK", count)

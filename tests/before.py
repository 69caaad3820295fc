"""Traces from before a request that made a trace record longer, moved a limit or brought a record, and what their answers become."""

import struct
import sys

from records import ANSWERS, TRACE, fields_at, layout, records, written

# What each request has inserted, the first one first: into the record of which mark, behind how many of its bytes, how many.
INSERTED = {
    "R-4": [(b"LK", 5, 1)],  # the silence, behind S
    "R-6": [(b"CN", 7, 4)],  # window and average gap, behind the size
    "R-7": [],  # nothing: it has moved two limits
    "R-8": [],  # nothing: it has brought a record
    "R-9": [],  # nothing: it has brought two
    "R-11": [],  # nothing: it has brought one
    "R-12": [],  # nothing: it has brought one
    "R-13": [],  # nothing: it has brought two
}

# The verdicts of an admission that met a limit of before R-7: 64 connections, 512 places.
OLD_LIMITS = (7, 9)

# The records that requests have brought since R-8, which were malformed before.
BROUGHT = {"R-8": [b"CL"], "R-9": [b"CS", b"PS"], "R-11": [b"LE"], "R-12": [b"LW"], "R-13": [b"LF", b"CF"]}


def from_then_on(request):
    """This request and those after it."""
    names = list(INSERTED)
    return names[names.index(request):]


def since(request):
    """What this request and those after it have inserted."""
    return [place for name in from_then_on(request) for place in INSERTED[name]]


def brought_since(request):
    """The marks that this request and those after it have brought."""
    return [mark for name in from_then_on(request) for mark in BROUGHT.get(name, ())]


def length_today(trace, at):
    """The length of the record at a place; 0 if its mark or its n is none."""
    name, fields = fields_at(trace, at, TRACE)
    return 0 if name is None else 2 + struct.calcsize(layout(fields))


def old_length(trace, at, request):
    """The length that it had before a request; 0 also if its mark was none then."""
    if trace[at:at + 2] in brought_since(request):
        return 0
    today = length_today(trace, at)
    return today and today - sum(width for mark, _, width in since(request) if trace.startswith(mark, at))


def with_zeros(trace, request):
    """The trace with zeros in the places that came with a request or later, and how many of them whole records got.

    A record that is cut short ends it; one that reaches the place gets its zeros, so that it lacks as
    many bytes as before. Bytes that were no record then, those of one that it has brought among them, and all behind them are left as they are.
    """
    inserted = since(request)
    parts, at, zeros = [], 0, 0
    while length := old_length(trace, at, request):
        record = trace[at:at + length]
        at += length
        whole = len(record) == length
        for mark, behind, width in inserted:
            if record.startswith(mark) and len(record) >= behind:
                record = record[:behind] + bytes(width) + record[behind:]
                zeros += width * whole
        parts.append(record)
    return b"".join(parts) + trace[at:], zeros


def moved(answers, zeros):
    """The same answers, but for the offset in an `ER`: so many bytes were inserted before it."""
    for at, mark, _, numbers in records(answers, ANSWERS):
        if mark == b"ER":
            verdict, offset = numbers
            return answers[:at] + written(mark, verdict, offset + zeros)
    return answers


def still_given(trace, answers, request):
    """The answers of a trace from before a request that are given today: all of them, but up to the first admission that met a limit of before R-7, and
    without the `ER` at bytes that are a record today, since this request or a later one has brought it. Nothing is said of what is given in their place and behind them."""
    limits = OLD_LIMITS if "R-7" in from_then_on(request) else ()
    for at, mark, _, numbers in records(answers, ANSWERS):
        if mark == b"CA" and numbers[0] in limits:
            return answers[:at]
        if mark == b"ER" and is_brought(trace, numbers[1], request):
            return answers[:at]
    return answers


def is_brought(trace, at, request):
    """Whether a whole record stands at a place that this request or a later one has brought."""
    return trace[at:at + 2] in brought_since(request) and len(trace) >= at + length_today(trace, at)


def bring_up(request, usage):
    """What the scripts insert-.. do with their arguments and their standard input."""
    arguments = sys.argv[1:]
    given = sys.stdin.buffer.read() if len(arguments) in (0, 2) else b""
    if not arguments:
        sys.stdout.buffer.write(with_zeros(given, request)[0])
    elif len(arguments) == 2 and arguments[0] == "--answers":
        with open(arguments[1], "rb") as trace:
            sys.stdout.buffer.write(moved(given, with_zeros(trace.read(), request)[1]))
    else:
        sys.exit(usage.strip())

"""The records of a trace and of its answers (section 10)."""

from book.limits import MAX_LEVELS, TRACE_LIMIT

# The widths of the fields behind the mark, in bytes.
TRACE = {
    b"LF": (2, 2, 1),
    b"CN": (1, 2, 2, 2, 2),
    b"CS": (1, 2, 2, 2),
    b"CF": (2, 2),
    b"CL": (1,),
    b"PK": (1, 2, 4),
    b"PS": (1, 2, 4, 4),
    b"NQ": (2, 4),
    b"TK": (2,),
}

# Records of links of levels: the widths of the fields before the bounds, and how many numbers of 2 bytes follow for each level.
LEVEL_LINKS = {
    b"LK": ((1, 2, 1), 1),
    b"LE": ((1, 2, 1, 1), 1),
    b"LW": ((1, 2, 1, 1), 2),
}

ANSWERS = {
    b"LA": (1,),
    b"CA": (1, 1, 1, 4),
    b"CD": (1,),
    b"PA": (1, 4),
    b"NA": (1, 4),
    b"DP": (1, 4, 4, 4, 4),
    b"TA": (1, 2),
    b"ER": (1, 4),
}


def widths_at(trace, offset):
    """Section 10: the widths of the fields of the record at the offset, None if its mark or its n is malformed."""
    mark = trace[offset:offset + 2]
    if mark in LEVEL_LINKS:
        head, tables = LEVEL_LINKS[mark]
        if offset + 2 >= len(trace):
            return None
        levels = trace[offset + 2]
        if not 1 <= levels <= MAX_LEVELS:
            return None
        return head + (2,) * (tables * levels)
    return TRACE.get(mark)


def read_record(trace, offset):
    """Section 10, "A malformed record": mark, numbers and end of the record at the offset, None if it is malformed."""
    widths = widths_at(trace, offset)
    if widths is None:
        return None
    end = offset + 2 + sum(widths)
    if end > len(trace) or end > TRACE_LIMIT:
        return None
    numbers = []
    at = offset + 2
    for width in widths:
        numbers.append(int.from_bytes(trace[at:at + width], "little"))
        at += width
    return trace[offset:offset + 2], numbers, end


def answer(mark, *numbers):
    """Section 10: the bytes of an answer record."""
    fields = [number.to_bytes(width, "little") for number, width in zip(numbers, ANSWERS[mark], strict=True)]
    return mark + b"".join(fields)

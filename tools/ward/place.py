"""Where a byte of a log stands: in the answer to which record of the trace, and in which field."""

from typing import NamedTuple

from ward.exchanges import Exchange, Record, exchanges
from ward.records import ANSWERS, CannotRead, form_of, record_at
from ward.text import plain

# How many bytes are shown that are no answer.
SHOWN = 24


class Place(NamedTuple):
    """A byte of a log: the exchange that it belongs to, the answer that it stands in, and the answer's field. Behind the last answer of a log there is no
    answer, and the exchange is the last one; where the trace has no record there is no exchange either."""

    exchange: Exchange
    answer: Record
    field: str

    def at(self, offset):
        """Where the answer begins; behind the last one, the byte itself."""
        return self.answer.at if self.answer else offset


def form(answer):
    return form_of(answer.mark, 0)[1]


def size_of(answer):
    """The bytes of an answer."""
    return 2 + form(answer).size


def field_at(answer, offset):
    """The name of the field that a byte of an answer stands in; its first two bytes are its mark."""
    at = answer.at + 2
    if offset < at:
        return "mark"
    for name, width in answer.fields:
        at += width
        if offset < at:
            return name
    raise ValueError(f"byte {offset} is behind the answer")


def place_of(trace, log, offset):
    """The place of a byte of a log, which is the one that the program gives for the trace; both are files, of which a record and its answers are kept at a
    time."""
    last = None
    for last in exchanges(trace, log):
        for answer in last.answers:
            if offset < answer.at + size_of(answer):
                return Place(last, answer, field_at(answer, offset))
    return Place(last, None, "")


def record_words(exchange):
    """Which record of the trace that is, for people."""
    record = exchange.record
    what = plain(record.mark, record.numbers) if record.mark else f"damaged: {exchange.damage}"
    return f"record {exchange.count} of the trace, at its byte {record.at} ({what})"


def bytes_words(data):
    """The answer with which some bytes begin, or the bytes where that is none."""
    try:
        _, unpacks, _ = record_at(data, 0, ANSWERS)
    except CannotRead:
        return f"the bytes {data[:SHOWN].hex(' ').upper()}{' ..' if len(data) > SHOWN else ''}" if data else "nothing"
    return plain(data[:2], unpacks.unpack_from(data, 2))


def number_in(data, answer, field):
    """The number of a field in bytes that stand where an answer should; None where they end before it does, or have another mark."""
    if field == "mark" or data[:2] != answer.mark or len(data) < size_of(answer):
        return None
    return form(answer).unpack_from(data, 2)[[name for name, _ in answer.fields].index(field)]


def answer_words(place, data, there):
    """What the rules give for an answer, and what the log has in its place: its bytes there. Both are the same up to so many bytes, and no further."""
    answer, field = place.answer, place.field
    given = answer.mark + form(answer).pack(*answer.numbers)
    if data[:there] != given[:there] or data[there:there + 1] == given[there:there + 1]:
        raise CannotRead("a file has changed")
    number = number_in(data, answer, field)
    if number is not None:
        return f"in the field {field} of its {answer.mark.decode()} the rules give {answer.named()[field]}, and the log has {number}"
    ends = f"ends before the end of the {'mark' if field == 'mark' else f'field {field}'}"
    return f"the rules give {plain(answer.mark, answer.numbers)}, and the log {ends if len(data) == there else f'has {bytes_words(data)}'}"


def place_words(place, data, offset):
    """The place of a byte in words, and what stands there: some bytes of the log from the answer on, or from the byte itself on where there is no answer."""
    if place.exchange is None:
        return f": the trace has no record, and the log has {bytes_words(data)}"
    if place.answer is None:
        return f", behind the last answer, to {record_words(place.exchange)}: the log has {bytes_words(data)}"
    return f", in the answer to {record_words(place.exchange)}: {answer_words(place, data, offset - place.answer.at)}"

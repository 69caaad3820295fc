"""A trace and its log side by side: each record with what it was answered."""

from typing import NamedTuple

from ward.records import ANSWERS, TRACE, CannotRead, records_in


class Record(NamedTuple):
    """A record at its place: its mark, its fields with their widths, and their numbers."""

    at: int
    mark: bytes
    fields: list
    numbers: tuple

    def named(self):
        """The numbers by the names of their fields."""
        return {name: number for (name, _), number in zip(self.fields, self.numbers)}


class Exchange(NamedTuple):
    """The so-manieth record of a trace, counted from 1, and its answers. Where the trace is damaged the record has no mark, and why stands there."""

    count: int
    record: Record
    answers: list
    damage: str = ""


def damaged(count, damage, answers):
    """The last exchange of a damaged trace: what the log has left is answered to the bytes that are no record."""
    return Exchange(count, Record(damage.at, b"", [], ()), list(answers), damage.why)


def exchanges(trace, log):
    """The exchanges of a trace and a log, both files, in order, no more than one of them kept. An answer `ER` ends them: the rest of the trace was not looked
    at. Raises CannotRead where the log is damaged, behind the exchange that has the answers up to there, where it has any."""
    answers, count = (Record(*each) for each in records_in(log, ANSWERS)), 0
    given = records_in(trace, TRACE)
    while True:
        count += 1
        try:
            record = Record(*next(given))
        except StopIteration:
            return
        except CannotRead as damage:
            yield damaged(count, damage, answers)
            return
        told, damage = answers_to(record, answers)
        if told or not damage:
            yield Exchange(count, record, told)
        if damage:
            raise damage
        if told and told[-1].mark == b"ER":
            return


def answers_to(record, answers):
    """What a record is answered: all departures up to its `TA` for a `TK`, one answer for any other; less where the log ends, or is damaged: then with the
    damage."""
    told = []
    try:
        for answer in answers:
            told.append(answer)
            if record.mark != b"TK" or answer.mark != b"DP":
                break
    except CannotRead as damage:
        return told, damage
    return told, None

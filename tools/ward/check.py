"""Whether a log is the one that the rules give for a trace, as the proved checker says (document 02, R-14); and if not, the first byte that is wrong, as the
record and the field that it stands in. For `ward check` and for ./check-log."""

import os

from ward import program
from ward.ends import CANNOT_READ, CANNOT_RUN, Ended
from ward.files import opened
from ward.place import place_of, place_words
from ward.records import LONGEST, CannotRead

# What the checker says of a log that is not accepted, before the byte.
DIFFERS, TOO_LONG, ENDS_EARLY = WRONG = ("differs", "too long", "ends early")


class Unread(Ended):
    """The checker could not read the trace, or the log."""

    def __init__(self, what):
        super().__init__(f"reading the {what} failed", CANNOT_READ)
        self.what = what


def found(trace_path, log_path):
    """What is wrong with a log, and at which byte; nothing where it is accepted."""
    said, complained = program.judged(trace_path, log_path)
    kind, _, offset = said.partition(" at byte ")
    if kind in WRONG and offset.isdigit():
        return kind, int(offset)
    for what in ("trace", "log"):
        if complained == f"check_log: reading the {what} failed":
            raise Unread(what)
    if said != "accepted" or complained:
        raise Ended(f"the checker did not tell what it found: {complained or said}", CANNOT_RUN)
    return None


def bytes_at(path, at):
    """As many bytes of a file as the longest record has, fewer at its end."""
    with opened(path) as file:
        file.seek(at)
        return file.read(LONGEST)


def where(trace_path, log_path, offset):
    """The place of a byte, in words. Raises CannotRead where a file has changed since it was judged."""
    with opened(trace_path) as trace, opened(trace_path) as fed, program.running(fed) as told:
        place = place_of(trace, told, offset)
    return place_words(place, bytes_at(log_path, place.at(offset)), offset)


def check(trace_path, log_path):
    """A line for people, and what is wrong with the log, nothing where it is accepted. What is wrong is told also where its place can't be."""
    wrong = found(trace_path, log_path)
    if wrong is None:
        return f"accepted: the log is the one that the rules give for the trace, all {os.path.getsize(log_path)} bytes of it", None
    kind, offset = wrong
    try:
        place = where(trace_path, log_path, offset)
    except (Ended, OSError, CannotRead) as why:
        place = f"; its place can't be told: {why}"
    return f"{kind} at byte {offset} of the log{place}", kind

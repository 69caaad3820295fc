"""`ward run`: a trace through the proved program, with progress, its log kept where that is wanted."""

import contextlib
import os
import sys
import time

from ward import program
from ward.ends import cannot_read
from ward.files import opened, writable
from ward.history import History
from ward.records import PIECE

# Progress is told from the first second on, twice a second.
QUIET, EVERY = 1.0, 0.5


class Kept:
    """Answers that are read, and written to a file besides where there is one."""

    def __init__(self, answers, file):
        self.answers, self.file = answers, file

    def read(self, count):
        data = self.answers.read(count)
        if self.file:
            self.file.write(data)
        return data


class Progress:
    """How far a run is, on standard error: where that is a terminal, or it is asked for."""

    def __init__(self, path, wanted):
        self.size, self.shown = max(1, os.path.getsize(path)), wanted or sys.stderr.isatty()
        self.next = time.monotonic() + (0 if wanted else QUIET)
        self.ending = "\r" if sys.stderr.isatty() else "\n"
        self.told = False

    def __call__(self, history):
        if not self.shown or time.monotonic() < self.next:
            return
        self.next, self.told = time.monotonic() + EVERY, True
        said = f"ward: {100 * history.at // self.size:3d} % of the trace, {history.records} records, tick {history.clock}"
        print(said, end=self.ending, file=sys.stderr, flush=True)

    def end(self):
        if self.told and self.ending == "\r":
            print(file=sys.stderr)


def run(path, log_path=None, pumps=(), wanted=False):
    """The history of a trace."""
    progress = Progress(path, wanted)
    with opened(path) as trace, opened(path) as fed, writable(log_path) if log_path else contextlib.nullcontext() as file, program.running(fed) as told:
        kept = Kept(told, file)
        try:
            history = History(pumps).read(trace, kept, progress)
            while kept.read(PIECE):
                pass
        finally:
            progress.end()
    if history.log_is_damaged:
        raise cannot_read("the program's answers", history.damage)
    return history

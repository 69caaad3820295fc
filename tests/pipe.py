"""The hub's numbers and the pipe to the program that makes the hub's calls from C (tests/board, with --pipe): every script that needs the width of a table or a place in
a block takes it from here.

A block is a request, and with the answer and what the call has left it is the reply: 16,384 numbers of 32 bits, the low byte first. Which call and what it asks; the hub's
numbers; how many numbers of each table are lent; the answer (HEAD has their order); then the tables, each with room for 16 rows more. All numbers behind them are 0.
"""

import array
import os
import subprocess

ROOT = os.path.dirname(os.path.dirname(os.path.abspath(__file__)))
# the program that tests/c-hub leaves, without sanitizers
PROGRAM = os.path.join(ROOT, "target", "board", "plain")
NUMBERS = 16384
MOST_LEVELS = 8
MOST_REMEMBERED = 16
# what notices bear where a connection's number would stand
NOTICE = 254
# the calls, by their numbers: tests/board/pipe.c has the same
CALLS = ("link", "admit", "admit_stamped", "offer", "offer_stamped", "notice", "close", "tick")
LINK = ("levels", "largest", "silence", "early", *(f"{what} {level}" for what in ("bound", "window") for level in range(MOST_LEVELS)))
# a link has the most numbers that are asked for
MOST_ASKED = len(LINK)
HUB = LINK + ("clock", "serving", "units", "silent")
LENT = ("connections lent", "places lent", "notices lent")
PACKET = ("connection", "length", "tag", "arrival", "eligibility")
TOLD = ("verdict", "number", "short level", "short units", "gone", *(f"{name} of the packet" for name in PACKET))
HEAD = ("call", *(f"asked {number}" for number in range(MOST_ASKED)), *HUB, *LENT, *TOLD)
# the row of a connection, and what stands behind all rows: the rows up to the last owner's, and one more than the earliest last eligibility of those that are closed
CONNECTION = ("level", "size", "gap", "window", "average", "kind", "allowance", "mark", "known", *(f"past {k}" for k in range(1, MOST_REMEMBERED + 1)))
SUMS = ("used", "first")
# each table has room for so many rows more than its length: it is lent too long as well
MORE = 16
# where the numbers of the head stand
AT = {name: place for place, name in enumerate(HEAD)}


class NoPlace(Exception):
    """A row or a field that a table has not."""


class Table:
    """A table in the block: where it begins, its rows and their fields, what stands behind the rows. Where nothing does, the rows of its room have places too."""

    def __init__(self, name, at, rows, fields, behind=()):
        self.name, self.at, self.rows, self.fields, self.behind = name, at, rows, fields, behind
        self.width = len(fields)
        self.length = rows * self.width + len(behind)
        self.most = rows if behind else rows + MORE
        self.end = at + self.length + MORE * self.width

    def place(self, row, field):
        if row >= self.most or field not in self.fields:
            raise NoPlace(f"{field} in row {row} of the {self.name}")
        return self.at + row * self.width + self.fields.index(field)

    def column(self, block, field):
        """A field of all rows."""
        return block[self.place(0, field) : self.at + self.most * self.width : self.width]

    def name_of(self, place):
        row, field = divmod(place - self.at, self.width)
        if row < self.most:
            return f"{self.fields[field]} in row {row} of the {self.name}"
        return f"number {place - self.at - self.rows * self.width} behind the {self.name}"


CONNECTIONS = Table("connections", len(HEAD), 200, CONNECTION, SUMS)
PLACES = Table("places", CONNECTIONS.end, 2048, PACKET)
NOTICES = Table("notices", PLACES.end, 64, PACKET)
TABLES = (CONNECTIONS, PLACES, NOTICES)
if NOTICES.end > NUMBERS:
    raise ValueError("the tables do not fit into a block")
AT.update({name: CONNECTIONS.at + CONNECTIONS.rows * CONNECTIONS.width + place for place, name in enumerate(SUMS)})


def name_of(place):
    """What stands at a place of a block."""
    if place < len(HEAD):
        return HEAD[place]
    table = next((table for table in TABLES if place < table.end), None)
    return table.name_of(place) if table else "number behind the tables"


def zeros():
    return array.array("I", bytes(4 * NUMBERS))


def put(block, at, numbers):
    """These numbers stand from a place on."""
    block[at : at + len(numbers)] = array.array("I", numbers)


def lent_whole():
    """A fresh hub, all zero, that lends its tables in their lengths."""
    block = zeros()
    put(block, AT[LENT[0]], [table.length for table in TABLES])
    return block


class Ended(Exception):
    """The program has not replied."""


class Pipe:
    """The program of tests/board, run by these words: one process, asked again and again."""

    def __init__(self, words):
        self.running = subprocess.Popen([*words, "--pipe"], stdin=subprocess.PIPE, stdout=subprocess.PIPE)

    def reply(self, block):
        """What the program replies to a block."""
        try:
            self.running.stdin.write(block.tobytes())
            self.running.stdin.flush()
        except BrokenPipeError as error:
            raise Ended("the program has ended") from error
        said = self.running.stdout.read(4 * NUMBERS)
        if len(said) < 4 * NUMBERS:
            raise Ended("the program has ended")
        return array.array("I", said)

    def close(self):
        self.running.stdin.close()
        self.running.stdout.close()
        return self.running.wait()


def asking(block, call, numbers):
    """The block becomes the request of a call with these numbers."""
    block[AT["call"]] = CALLS.index(call)
    put(block, AT["asked 0"], [*numbers, *[0] * (MOST_ASKED - len(numbers))])
    return block

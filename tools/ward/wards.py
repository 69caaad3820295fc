"""A ward as a text file: its link, its pumps, and how each of them sends. docs/TECHNICIAN.md has the format, with three examples.

One statement to a line; what stands behind a # is for people.

    link    largest 8  silence 1  bounds 40 100 300  [windows 40 100 480]  [early on]
    frames  length 200  largest 8  silence 1
    pump NAME    level 1  gap 40  size 4  [window 180  average 60] [allowance 50]  [count 20]  [SENDS]
    pump NAME    units 40  places 4  [count 20]  [SENDS]
    notice NAME  size 4  [SENDS]
    ticks 240

A ward has one link, of levels (`link`) or of frames (`frames`). SENDS is `sends keeps`, `bursts`, `wild`, `random` or `nothing`, or `sends every 4`, each
with `from TICK` and `to TICK` where that is wanted, or `sends at TICK TICK ..`; and `tags 901`, the first packet's tag.
"""

import re
from typing import NamedTuple

from ward.ends import cannot_read
from ward.figures import Frames, Gap, Levels, Share, Stamps

WAYS = ("keeps", "bursts", "wild", "random", "nothing")
DEFAULT_TICKS = 1_000
# How far apart the tags of two pumps are, and of two senders of notices.
TAGS_APART, NOTICES_APART = 1_000_000, 100_000
BYTE, TWO_BYTES, FOUR_BYTES = 0xFF, 0xFFFF, 0xFFFFFFFF
# The clock ends there.
MOST_TICKS = 4_000_000_000
# Of each statement what may stand in it, with the largest number that a record has room for; and what must.
LINK = {"largest": TWO_BYTES, "silence": BYTE, "bounds": TWO_BYTES, "windows": TWO_BYTES, "early": None}
FRAMES = {"length": TWO_BYTES, "largest": TWO_BYTES, "silence": BYTE}
SENDING = {"sends": None, "at": FOUR_BYTES, "every": FOUR_BYTES, "from": FOUR_BYTES, "to": FOUR_BYTES, "tags": FOUR_BYTES}
BY_LEVEL = {"level": BYTE, "gap": TWO_BYTES, "size": TWO_BYTES, "window": TWO_BYTES, "average": TWO_BYTES, "allowance": TWO_BYTES}
BY_FRAME = {"units": TWO_BYTES, "places": TWO_BYTES}
PUMP = {**BY_LEVEL, **BY_FRAME, "count": TWO_BYTES, **SENDING}
NOTICE = {"size": TWO_BYTES, **SENDING}
TICKS = {"ticks": MOST_TICKS}
LISTS = ("bounds", "windows", "at")


class Sending(NamedTuple):
    """How a line sends: the way, the ticks of `at`, the step of `every`, from which tick and up to which, and the tag of its first packet."""

    way: str
    ticks: tuple
    every: int
    start: int
    stop: int
    tags: int


class Pump(NamedTuple):
    """A line of a ward, with its place in the file."""

    name: str
    figures: tuple
    sending: Sending
    place: str


class Notice(NamedTuple):
    """Who sends notices (R-1), of one length."""

    name: str
    size: int
    sending: Sending


class Ward(NamedTuple):
    """A link, the pumps in the order in which they ask, the senders of notices, and how many ticks a trace of it has; the place of the link in the file, and
    the file."""

    link: tuple
    pumps: tuple
    notices: tuple
    ticks: int
    link_place: str
    path: str


class Statement:
    """One line of the file: its figures by name, each as its words."""

    def __init__(self, place, words, known):
        self.place, self.figures = place, {}
        figure = None
        for word in words:
            if word in known:
                if word in self.figures:
                    raise cannot_read(f"{place}: {word}", "it stands here twice")
                figure = self.figures.setdefault(word, [])
            elif figure is None:
                raise cannot_read(place, f"{word!r} is none of its figures: {', '.join(known)}")
            else:
                figure.append(word)
        self.known = known

    def wrong(self, name, why):
        return cannot_read(f"{self.place}: {name}", why)

    def numbers(self, name):
        """The numbers of a figure, each of which its record has room for."""
        for word in self.figures.get(name, ()):
            if not re.fullmatch(r"[0-9]{1,3}(,[0-9]{3})+|[0-9]+", word):
                raise self.wrong(name, f"{word!r} is not a number")
        numbers = tuple(int(word.replace(",", "")) for word in self.figures.get(name, ()))
        for number in numbers:
            if number > self.known[name]:
                raise self.wrong(name, f"{number} is more than {self.known[name]}")
        return numbers

    def number(self, name, missing=None):
        """The one number of a figure, or another where the figure is missing; with no other it must be there."""
        if name not in self.figures:
            if missing is None:
                raise self.wrong(name, "it is missing")
            return missing
        numbers = self.numbers(name)
        if len(numbers) != 1:
            raise self.wrong(name, f"one number, please, and not {len(numbers)}")
        return numbers[0]

    def word(self, name, allowed, missing):
        """The one word of a figure, or another where the figure is missing."""
        words = self.figures.get(name, [missing])
        if len(words) != 1 or words[0] not in allowed:
            raise self.wrong(name, f"one of these, please: {', '.join(allowed)}")
        return words[0]


def levels_of(statement):
    for name in ("bounds", "windows"):
        if name in statement.figures and not statement.figures[name]:
            raise statement.wrong(name, "a number for each level, please")
    bounds, windows = statement.numbers("bounds"), statement.numbers("windows")
    if not 1 <= len(bounds) <= 8:
        raise statement.wrong("bounds", f"one for each level, 1 to 8 of them, and not {len(bounds)}")
    if windows and len(windows) != len(bounds):
        raise statement.wrong("windows", f"one for each of the {len(bounds)} bounds, and not {len(windows)}")
    early = statement.word("early", ("on", "off"), "off") == "on"
    return Levels(statement.number("largest"), statement.number("silence", 0), bounds, windows, int(early))


def frames_of(statement):
    return Frames(statement.number("length"), statement.number("largest"), statement.number("silence", 0))


def figures_of(statement):
    """The figures of a pump: by stamps where it has an allowance, on a link of frames where it has units or places."""
    by_frame = [name for name in BY_FRAME if name in statement.figures]
    by_level = [name for name in BY_LEVEL if name in statement.figures]
    if by_frame and by_level:
        raise statement.wrong(by_level[0], "a pump has a level or units of a frame, and not both")
    if by_frame:
        return Share(statement.number("units"), statement.number("places"))
    three = [statement.number(name) for name in ("level", "gap", "size")]
    if "allowance" not in statement.figures:
        return Gap(*three, statement.number("window", 0), statement.number("average", 0))
    for name in ("window", "average"):
        if name in statement.figures:
            raise statement.wrong(name, "a line with an allowance, by stamps, has no average")
    return Stamps(*three, statement.number("allowance"))


def sending_of(statement, tags):
    """How a line sends; where nothing is said it keeps its word."""
    ticks, every = statement.numbers("at"), statement.number("every", 0)
    if statement.figures.get("sends") == []:
        del statement.figures["sends"]
    ways = [name for name in ("sends", "at", "every") if name in statement.figures]
    if len(ways) > 1:
        raise statement.wrong(ways[1], f"{ways[0]} says already how it sends")
    if "every" in ways and every == 0:
        raise statement.wrong("every", "at least 1, please")
    if "at" in ways and not ticks:
        raise statement.wrong("at", "at least one tick, please")
    way = statement.word("sends", WAYS, WAYS[0]) if ways in ([], ["sends"]) else ways[0]
    start, stop = statement.number("from", 0), statement.number("to", FOUR_BYTES)
    if stop < start:
        raise statement.wrong("to", f"{stop} is before {start}, from which it sends")
    return Sending(way, ticks, every, start, stop, statement.number("tags", tags))


def counted(name, count):
    """So many names, counted up from the number at the end of the first, or from 1 where it has none."""
    if count == 1:
        return [name]
    stem, digits = re.fullmatch(r"(.*?)(\d*)", name).groups()
    return [f"{stem}{int(digits or 1) + more:0{len(digits)}d}" for more in range(count)]


class Reader:
    """Reads a ward from its lines."""

    def __init__(self, path):
        self.path, self.link, self.pumps, self.notices, self.ticks = path, None, [], [], DEFAULT_TICKS
        self.names, self.link_place = {}, ""

    def read(self, text):
        for number, line in enumerate(text.splitlines(), 1):
            words = line.split("#")[0].split()
            if words:
                self.statement(f"{self.path}:{number}", words)
        if self.link is None:
            raise cannot_read(self.path, "it has no link: a line that begins with 'link' or 'frames'")
        return Ward(self.link, tuple(self.pumps), tuple(self.notices), self.ticks, self.link_place, self.path)

    def statement(self, place, words):
        kind = words[0]
        if kind in ("link", "frames"):
            if self.link is not None:
                raise cannot_read(f"{place}: {kind}", "the ward has a link already")
            self.link_place = f"{place}: {kind}"
            self.link = levels_of(Statement(place, words[1:], LINK)) if kind == "link" else frames_of(Statement(place, words[1:], FRAMES))
        elif kind == "ticks":
            self.ticks = Statement(place, words, TICKS).number("ticks")
        elif kind in ("pump", "notice"):
            if len(words) < 2 or words[1] in PUMP:
                raise cannot_read(f"{place}: {kind}", "a name, please, behind the word")
            (self.pump if kind == "pump" else self.notice)(place, words[1], words[2:])
        else:
            raise cannot_read(place, f"a line begins with link, frames, pump, notice or ticks, and not with {kind!r}")

    def named(self, name, place):
        """Names are of one pump or sender of notices each, and can be printed."""
        if not name.isprintable():
            raise cannot_read(place, f"the name {name!r} can't be printed")
        if name in self.names:
            raise cannot_read(f"{place}: {name}", f"{self.names[name]} has this name already")
        self.names[name] = place
        return name

    def pump(self, place, name, words):
        statement = Statement(place, words, PUMP)
        figures, count = figures_of(statement), statement.number("count", 1)
        if count == 0:
            raise statement.wrong("count", "at least 1, please")
        for each in counted(name, count):
            sending = sending_of(statement, TAGS_APART * (len(self.pumps) + 1) + 1)
            self.pumps.append(Pump(self.named(each, place), figures, sending, place))

    def notice(self, place, name, words):
        statement = Statement(place, words, NOTICE)
        self.notices.append(Notice(self.named(name, place), statement.number("size"), sending_of(statement, NOTICES_APART * len(self.notices) + 1)))


def read_ward(path, text):
    return Reader(path).read(text)


def read_figures(text):
    """The figures of a pump alone, as `ward plan --fit` takes them."""
    return figures_of(Statement("--fit", text.split(), {**BY_LEVEL, **BY_FRAME}))

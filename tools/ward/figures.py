"""The figures of a link and of a line, of both disciplines, and the record that asks the hub for each."""

from typing import NamedTuple

from ward import records

MOST_LINES = 200
MOST_PLACES = 2_048
MOST_LEVELS = records.MOST_LEVELS
MOST_SILENCE = 64
LONGEST_GAP = 65_535
LONGEST_BOUND = 32_768
# What a refused admission is answered in the place of a number, and the number of notices.
NO_NUMBER, NOTICES = 255, 254


class Levels(NamedTuple):
    """A link of levels: document 01's, with the silence of R-4, the setting of R-11 and the windows of R-12, which are no windows where there are none."""

    largest: int
    silence: int
    bounds: tuple
    windows: tuple = ()
    early: int = 0

    def record(self):
        if self.windows:
            return records.link(self.largest, self.silence, self.bounds, self.early, self.windows)
        return records.link(self.largest, self.silence, self.bounds, 1 if self.early else None)

    @staticmethod
    def limits():
        return "largest 1 to 2,048; silence at most 64; bounds that rise, from the largest with its silence to 32,768; each window from its bound to 32,768"

    def within(self, level):
        """The ticks within which packets are counted at a level: its window, or without windows its bound."""
        return (self.windows or self.bounds)[level - 1]

    def levels(self):
        return range(1, len(self.bounds) + 1)

    def words(self):
        test = f"windows {' '.join(map(str, self.windows))}: the finer test (R-12)" if self.windows else "document 01's test"
        return f"largest packet {self.largest}, silence {self.silence}, {'packets may go early, ' if self.early else ''}{test}"


class Frames(NamedTuple):
    """A link of frames (R-13)."""

    length: int
    largest: int
    silence: int

    def record(self):
        return records.framing(self.length, self.largest, self.silence)

    @staticmethod
    def limits():
        return "length 1 to 32,768, and at least the largest with its silence; largest 1 to 2,048; silence at most 64"

    def words(self):
        return f"frames of {self.length} ticks, largest packet {self.largest}, silence {self.silence}"


class Gap(NamedTuple):
    """A line by its gap, with an average (R-6) or without: then window and average are 0."""

    level: int
    gap: int
    size: int
    window: int = 0
    average: int = 0

    def record(self):
        return records.admit(*self)

    def words(self):
        return f"level {self.level} gap {self.gap} size {self.size}" + (f" window {self.window} average {self.average}" if self.window or self.average else "")


class Stamps(NamedTuple):
    """A line from another hub, by stamps (R-9)."""

    level: int
    gap: int
    size: int
    allowance: int

    def record(self):
        return records.admit_stamped(*self)

    def words(self):
        return f"level {self.level} gap {self.gap} size {self.size} allowance {self.allowance}"


class Share(NamedTuple):
    """A line on a link of frames (R-13)."""

    units: int
    places: int

    def record(self):
        return records.share(*self)

    def words(self):
        return f"units {self.units} places {self.places}"

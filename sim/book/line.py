"""What a line keeps (section 2)."""


class LevelLink:
    """A link of the discipline of levels (section 4, "The link")."""

    def __init__(self, levels, largest, silence, setting, bounds, windows):
        self.levels = levels      # n
        self.largest = largest    # S
        self.silence = silence    # q
        self.setting = setting    # of the stand-by queue: 0 off, 1 on
        self.bounds = bounds      # d of level 1, 2, .., n
        self.windows = windows    # w of level 1, 2, .., n; all 0: none

    def windowed(self):
        """Section 4: the windows are all 0: the link has no windows."""
        return any(self.windows)

    def bound(self, level):
        """Section 4, "The link": d of a level."""
        return self.bounds[level - 1]

    def window(self, level):
        """Section 4, "The link": w of a level."""
        return self.windows[level - 1]


class FrameLink:
    """A link of the discipline of frames (section 5, "The link")."""

    def __init__(self, frame, largest, silence):
        self.frame = frame        # T
        self.largest = largest    # S
        self.silence = silence    # q


class Connection:
    """A connection of levels (section 4, "A connection")."""

    def __init__(self, level, gap, size, window, average_gap, stamped, allowance):
        self.level = level
        self.gap = gap                  # X
        self.size = size
        self.window = window            # I, 0 without an average
        self.average_gap = average_gap  # 0 without an average
        self.stamped = stamped          # by stamps, else by its gap
        self.allowance = allowance      # a
        self.closed = False
        self.remembered = []            # eligibilities, newest first

    def averaged(self):
        """Section 4: by its gap, with an average."""
        return self.window > 0

    def burst(self):
        """Section 4: N, which is I / average gap; asked where there is an average."""
        return self.window // self.average_gap


class Share:
    """A connection of frames (section 5, "A connection")."""

    def __init__(self, units, places):
        self.units = units    # r
        self.places = places  # p


class Packet:
    """A held packet, or a notice under number 254 (section 2)."""

    def __init__(self, connection, length, tag, arrival, eligibility):
        self.connection = connection
        self.length = length
        self.tag = tag
        self.arrival = arrival
        self.eligibility = eligibility


class Line:
    """Section 2: a line is fresh at first."""

    def __init__(self):
        self.link = None
        self.clock = 0
        self.owners = {}      # the connections by their numbers
        self.held = []        # packets, in the order offered
        self.notices = []     # packets of no connection, in the order offered
        self.service = None   # the packet or notice in service
        self.to_go = 0        # its units to go
        self.silence = 0      # the silence still to run

    def has_levels(self):
        """Section 3: levels set."""
        return isinstance(self.link, LevelLink)

    def has_frames(self):
        """Section 3: frames set."""
        return isinstance(self.link, FrameLink)

    def holds(self, number):
        """Section 2: how many packets a connection holds, one in service counted."""
        return sum(1 for p in self.held if p.connection == number)

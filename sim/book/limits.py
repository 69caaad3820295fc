"""The limits of section 1, and what a packet costs (section 2)."""

CLOCK_END = 4_000_000_000
MAX_LEVELS = 8
MAX_LARGEST = 2_048
MAX_SILENCE = 64
MAX_BOUND = 32_768
MAX_LEVEL_WINDOW = 32_768
MAX_GAP = 65_535
MAX_WINDOW = 65_535
MAX_BURST = 16
MAX_REMEMBERED = 16
MAX_ALLOWANCE = 65_535
MAX_CONNECTIONS = 200
MAX_RESERVED = 2_048
MAX_NOTICES = 64
MAX_FRAME = 32_768
MAX_UNITS = 2_048
MAX_PLACES = 2_048

NOTICE_NUMBER = 254
NO_CONNECTION_NUMBER = 255

TRACE_LIMIT = 16_777_216  # section 10, "A malformed record"


def rounded_up(a, b):
    """The preface: a / b rounded up."""
    return (a + b - 1) // b


def cost(link, length):
    """Section 2: what a packet costs is its length plus q."""
    return length + link.silence

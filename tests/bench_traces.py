"""The traces of tests/bench: one function each, from a size in bytes to a trace of about that size, never of more."""

import heapq
import os
import subprocess
from itertools import count

from records import PER_LEVEL, TRACE, admit, admit_stamped, close, layout, link, notice, offer, offer_stamped, ticks
from struct import calcsize

LIMIT = 16_777_216
GEN = os.path.join(os.path.dirname(os.path.dirname(os.path.abspath(__file__))), "sim", "target", "release", "gen")
LENGTHS = {mark: 2 + calcsize(layout(fields)) for mark, (_, fields) in TRACE.items()}


def cut(trace, size):
    """Whole records from the front, of at most so many bytes."""
    at = 0
    while at < len(trace):
        mark = trace[at:at + 2]
        then = at + LENGTHS[mark] + 2 * len(PER_LEVEL.get(mark, ())) * trace[at + 2]
        if then > size:
            break
        at = then
    return trace[:at]


def generated(kind, size):
    """A trace of a kind of the simulator's generator, from seed 4, whose links have no silence."""
    steps = 1000
    while True:
        trace = subprocess.run([GEN, kind, "4", str(steps)], stdout=subprocess.PIPE, check=True).stdout
        if len(trace) >= size:
            return cut(trace, size)
        steps = steps * size // max(len(trace), 1) + 1000


def rounds(start, one_round, size):
    """The same round again and again."""
    return start + one_round * ((size - len(start)) // len(one_round))


def quiet(size):
    return generated("quiet", size)


def flooded(size):
    return generated("flooded", size)


def ward(connections, places, silence=0, setting=None):
    """So many connections of packets of one unit, each with so many places: its gap is the time in which each of them sends once, and a tick."""
    gap = connections * (1 + silence) + 1 + silence
    return link(1, silence, [places * gap], setting) + admit(1, gap, 1) * connections


def held(connections, places, size):
    """All places of all connections stay taken: in each tick one packet leaves, and its connection offers the next one."""
    start = ward(connections, places) + b"".join(offer(one, 1, 7) for one in range(connections)) * places
    return rounds(start, b"".join(ticks(1) + offer(one, 1, 7) for one in range(connections)) + ticks(1), size)


def rows(size):
    return held(128, 16, size)


def one_line(size):
    """The same of one connection."""
    return held(1, 2_048, size)


def opened(size):
    """150 connections stand; in each round one is admitted, sends a packet and is closed, and one that is closed before is freed."""
    bound = 400
    trace, free, charged, clock = [link(1, 0, [bound]) + admit(1, 400, 1) * 150], list(range(150, 200)), [], 0
    length = len(trace[0])
    while length < size - 40:
        while charged and charged[0][0] <= clock:
            heapq.heappush(free, heapq.heappop(charged)[1])
        number = heapq.heappop(free)
        trace.append(admit(1, 400, 1) + offer(number, 1, 7) + ticks(10) + close(number))
        heapq.heappush(charged, (clock + bound, number))
        length, clock = length + len(trace[-1]), clock + 10
    return b"".join(trace)


def averages(size):
    """128 connections with 16 packets to a window; in each round four packets of each, a burst."""
    start = link(1, 0, [2_064]) + admit(1, 2, 1, 2_064, 129) * 128
    return rounds(start, b"".join(offer(one, 1, 7) * 4 + ticks(4) for one in range(128)) + ticks(4), size)


def stamps(size):
    """The second of two hubs: 64 connections by stamps, whose packets come 5 to 20 ticks behind their stamp."""
    start = link(1, 0, [130]) + admit_stamped(1, 65, 1, 20) * 64
    trace, length = [start, ticks(20)], len(start) + 4
    for step in count():
        if length > size - 20:
            return b"".join(trace)
        line, clock = step % 64, 20 + step + step // 64
        trace.append(offer_stamped(line, 1, 7, clock - 5 - line % 16) + ticks(1 if line < 63 else 2))
        length += len(trace[-1])


def stand_by(size):
    """64 connections, the stand-by queue on: bursts of four packets of each of eight connections, of which three go before their eligibility. A round takes the time in which each may send four times."""
    bursts = [b"".join(offer(one, 1, 7) * 4 for one in range(first, first + 8)) + ticks(32) for first in range(0, 64, 8)]
    return rounds(ward(64, 16, setting=1), b"".join(bursts) + ticks(4), size)


def refused(size):
    """199 connections, and one more that the level test refuses, with eight levels."""
    bounds = [4_103 + level for level in range(8)]
    start = link(2, 0, bounds) + b"".join(admit(1 + one % 8, 400 if one < 58 else 411, 2) for one in range(199))
    return rounds(start, admit(8, 411, 2), size)


def windows(size):
    """A link with windows: 49 connections on seven levels and 150 on the eighth, of which document 01's test would let in 75. In each round one more is let in, just at the limit of the first β of the eighth level, and closed again; another one is refused at the second."""
    bounds = [332 + 10 * level for level in range(8)]
    urgent, last = (admit(1 + one % 7, 4_000, 2) for one in range(49)), (admit(8, 380 + one % 20, 2) for one in range(150))
    start = link(2, 0, bounds, 0, [1_140] * 8) + b"".join((*urgent, *last))
    return rounds(start, admit(8, 4_000, 2) + close(199) + admit(8, 1, 2, 8_000, 500), size)


def notices(size):
    """Notices alone, of which some wait; each leaves by itself."""
    return rounds(link(4, 0, [10]) + notice(2, 7) * 8, notice(2, 7) + ticks(2), size)


def silence(size):
    """A silence of four ticks behind each packet, 32 connections."""
    start = ward(32, 4, 4)
    return rounds(start, b"".join(offer(one, 1, 7) + ticks(5) for one in range(32)) + ticks(5), size)


def long(size):
    """All places are taken at once, and in one `TK` all packets leave."""
    return rounds(ward(128, 16), b"".join(offer(one, 1, 7) for one in range(128)) * 16 + ticks(16 * 129), size)


def single(size):
    """One tick to a `TK`: a packet of eight units every sixteen ticks, on one of eight connections."""
    start = link(8, 0, [1_024]) + admit(1, 128, 8) * 8
    return rounds(start, b"".join(offer(one, 8, 7) + ticks(1) * 16 for one in range(8)), size)


TRACES = {
    "quiet": quiet,
    "flooded": flooded,
    "2,048 rows held, 128 connections": rows,
    "2,048 rows held, one connection": one_line,
    "opened and closed": opened,
    "averages": averages,
    "stamps of a second hub": stamps,
    "stand-by": stand_by,
    "refused by the level test": refused,
    "admissions with windows": windows,
    "notices": notices,
    "silence": silence,
    "long TK": long,
    "one tick to a TK": single,
}

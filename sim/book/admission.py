"""Links, admissions and the level test of the discipline of levels (section 4; the order of the verdicts is that of section 6)."""

from functools import lru_cache

from book.limits import MAX_ALLOWANCE, MAX_BOUND, MAX_BURST, MAX_CONNECTIONS, MAX_GAP, MAX_LARGEST, MAX_LEVEL_WINDOW, MAX_LEVELS, MAX_RESERVED, MAX_SILENCE, MAX_WINDOW
from book.limits import NO_CONNECTION_NUMBER, cost, rounded_up


# The link

def rising(link):
    """Section 4, "The link": the bounds rise strictly; the first is at least S + q, the last at most 32,768."""
    bounds = link.bounds
    return (all(a < b for a, b in zip(bounds, bounds[1:]))
            and bounds[0] >= cost(link, link.largest)
            and bounds[-1] <= MAX_BOUND)


def windows_within(link):
    """Section 4, "The link": no windows, or each level has one, from its bound to 32,768."""
    if not link.windowed():
        return True
    return all(d <= w <= MAX_LEVEL_WINDOW for d, w in zip(link.bounds, link.windows))


def link_within(link):
    """Section 4, "The link": its limits."""
    return (1 <= link.levels <= MAX_LEVELS
            and 1 <= link.largest <= MAX_LARGEST
            and link.silence <= MAX_SILENCE
            and link.setting in (0, 1)
            and rising(link)
            and windows_within(link))


def set_link(line, link, within):
    """Sections 3 and 6: the verdict of a link of either discipline, whose limits are the function within."""
    if line.link is not None:
        return 3
    if not within(link):
        return 4
    line.link = link
    return 0


# A connection

def average_within(c):
    """Section 4, "A connection", by its gap, with an average or without."""
    if c.window == 0 and c.average_gap == 0:
        return True
    if c.window == 0 or c.average_gap == 0:
        return False
    return (c.window <= MAX_WINDOW
            and c.average_gap >= c.gap
            and c.window % c.average_gap == 0
            and 1 <= c.burst() <= MAX_BURST)


def figures_within(link, c):
    """Section 4, "A connection": limits of X, the size and the kind."""
    if c.stamped:
        kind_within = c.allowance <= MAX_ALLOWANCE
    else:
        kind_within = average_within(c)
    return 1 <= c.gap <= MAX_GAP and 1 <= c.size <= link.largest and kind_within


def count_within(v, gap, window, average_gap):
    """Section 4, "The count" within v ticks, of the three figures."""
    by_gap = rounded_up(v, gap)
    if window == 0:
        return by_gap
    burst = window // average_gap
    by_average = v // window * burst + min(burst, rounded_up(v % window, gap))
    return min(by_gap, by_average)


def count(c, v):
    """Section 4, "The count" of a connection within v ticks."""
    return count_within(v, c.gap, c.window, c.average_gap)


def reservation(link, c):
    """Section 4, "The reservation"."""
    d = link.bound(c.level)
    return count(c, c.allowance + d if c.stamped else d)


def distance(link, c):
    """Section 4, "The distance"."""
    return reservation(link, c) * c.gap


# The level test

def load(link, c, v):
    """Section 4, "The level test": b(v)."""
    return count(c, v) * cost(link, c.size)


@lru_cache(maxsize=None)
def steps(gap, window, average_gap, last):
    """Section 4, "The count": the v from 1 to last at which it is more than within v - 1, each with how much more. It can only grow where v or v mod I is one past a
    multiple of X, and at multiples of I."""
    at = set(range(1, last + 1, gap))
    if window > 0:
        for start in range(0, last + 1, window):
            end = min(start + window, last)
            at.update(range(start + 1, end + 1, gap))
            at.add(end)
    at.discard(0)
    grown = []
    for v in sorted(at):
        more = count_within(v, gap, window, average_gap) - count_within(v - 1, gap, window, average_gap)
        if more > 0:
            grown.append((v, more))
    return grown


def growth(link, own, above, d, w):
    """Section 4, "The level test": by how much the sum of the condition of beta is more than that of beta - 1, for each beta from 1 to w - d - 1 where it is."""
    grows = {}
    for members, ahead in ((own, 1), (above, d)):
        for c in members:
            price = cost(link, c.size)
            for v, more in steps(c.gap, c.window, c.average_gap, w):
                if 0 < v - ahead < w - d:
                    beta = v - ahead
                    grows[beta] = grows.get(beta, 0) + more * price
    return grows


def windowed_excess(link, connections, m):
    """Section 4, "The level test", on a link with windows: by how much the first condition of level m that fails is over its limit, 0 if none does.

    The limit d + beta rises with beta. So the first beta that fails is 0 or one at which the sum grows; from w - d on none fails."""
    d, w = link.bound(m), link.window(m)
    own = [c for c in connections if c.level == m]
    above = [c for c in connections if c.level < m]
    largest = cost(link, link.largest)
    total = sum(load(link, c, w) for c in own + above) + largest
    if total > w:
        return total - w
    total = sum(load(link, c, 1) for c in own) + sum(load(link, c, min(d, w)) for c in above) + largest
    if total > d:
        return total - d
    grows = growth(link, own, above, d, w)
    for beta in sorted(grows):
        total += grows[beta]
        if total > d + beta:
            return total - (d + beta)
    return 0


def excess(link, connections, m):
    """Section 4, "The level test": the units by which level m is over."""
    if link.windowed():
        return windowed_excess(link, connections, m)
    d = link.bound(m)
    total = sum(load(link, c, d) for c in connections if c.level <= m) + cost(link, link.largest)
    return max(0, total - d)


def level_test(link, connections):
    """Section 4, "The level test": the lowest level that fails and its units, (0, 0) if the test holds."""
    for m in range(1, link.levels + 1):
        units = excess(link, connections, m)
        if units > 0:
            return m, units
    return 0, 0


# The admission

def free_number(line):
    """Section 4, "Numbers": the lowest free number, None if there is none."""
    return next((number for number in range(MAX_CONNECTIONS) if number not in line.owners), None)


def refused(verdict, level=0, units=0):
    """Section 8: the answer to a refused admission."""
    return verdict, NO_CONNECTION_NUMBER, level, units


def admit(line, c):
    """Sections 6 and 8: verdict, number, level and units of an admission to a level."""
    link = line.link
    if not line.has_levels():
        return refused(2)
    if not 1 <= c.level <= link.levels:
        return refused(5)
    if not figures_within(link, c):
        return refused(6)
    number = free_number(line)
    if number is None:
        return refused(7)
    counted = list(line.owners.values()) + [c]
    level, units = level_test(link, counted)
    if level > 0:
        return refused(8, level, units)
    if sum(reservation(link, each) for each in counted) > MAX_RESERVED:
        return refused(9)
    line.owners[number] = c
    return 0, number, 0, 0

"""Offers and closes of the discipline of levels, and the notices of both (section 4; the order of the verdicts is that of section 6)."""

from book.admission import distance, reservation
from book.limits import CLOCK_END, MAX_NOTICES, MAX_REMEMBERED, NOTICE_NUMBER
from book.line import Packet


def stands(line, number):
    """Section 4, "Numbers": an owner stands until it is closed."""
    return number in line.owners and not line.owners[number].closed


def next_eligibility(line, c, stamp):
    """Section 4, "Eligibility" of an offer at the present tick."""
    if c.stamped:
        return stamp + c.allowance
    earliest = line.clock
    if c.remembered:
        earliest = max(earliest, c.remembered[0] + c.gap)
    if c.averaged() and len(c.remembered) >= c.burst():
        earliest = max(earliest, c.remembered[c.burst() - 1] + c.window)
    return earliest


def remember(c, eligibility):
    """Section 4, "Eligibility": what is remembered, newest first."""
    c.remembered = ([eligibility] + c.remembered)[:MAX_REMEMBERED]


def untimely(line, c, stamp):
    """Section 6, verdict 17."""
    eligibility = stamp + c.allowance
    return stamp > line.clock or eligibility < line.clock or (c.remembered and eligibility < c.remembered[0] + c.gap)


def too_far(line, c, stamp):
    """Section 6, verdict 18."""
    return line.link.setting == 1 and next_eligibility(line, c, stamp) > line.clock + distance(line.link, c)


def offer_verdict(line, number, length, stamp):
    """Section 6: the verdict of an offer; stamp is None where it has none."""
    if not line.has_levels():
        return 2
    if not stands(line, number):
        return 10
    c = line.owners[number]
    if c.stamped != (stamp is not None):
        return 10
    if not 1 <= length <= c.size:
        return 11
    if line.holds(number) >= reservation(line.link, c):
        return 12
    if line.clock >= CLOCK_END:
        return 13
    if c.stamped and untimely(line, c, stamp):
        return 17
    if too_far(line, c, stamp):
        return 18
    return 0


def offer(line, number, length, tag, stamp):
    """Section 8: verdict and eligibility of an offer."""
    verdict = offer_verdict(line, number, length, stamp)
    if verdict > 0:
        return verdict, 0
    c = line.owners[number]
    eligibility = next_eligibility(line, c, stamp)
    line.held.append(Packet(number, length, tag, line.clock, eligibility))
    remember(c, eligibility)
    return 0, eligibility


def notice_verdict(line, length):
    """Section 6: the verdict of a notice, in both disciplines."""
    if line.link is None:
        return 2
    if not 1 <= length <= line.link.largest:
        return 11
    if line.clock >= CLOCK_END:
        return 13
    if len(line.notices) >= MAX_NOTICES:
        return 15
    return 0


def notice(line, length, tag):
    """Section 8: verdict and eligibility of a notice."""
    verdict = notice_verdict(line, length)
    if verdict > 0:
        return verdict, 0
    t = line.clock
    line.notices.append(Packet(NOTICE_NUMBER, length, tag, t, t))
    return 0, t


# Closing

def charge_end(link, c):
    """Section 4, "Closing": the time from which on the charge is over."""
    if not c.remembered:
        return 0
    time = link.bound(link.levels)
    if link.windowed():
        time += max(link.windows)
    return c.remembered[0] + time


def sweep(line):
    """Section 4, "Closing": every closed number whose charge is over at the clock is freed."""
    over = [number for number, c in line.owners.items() if c.closed and line.clock >= charge_end(line.link, c)]
    for number in over:
        del line.owners[number]


def close(line, number):
    """Sections 6 and 8: the verdict of a close."""
    if not line.has_levels():
        return 2
    if not stands(line, number):
        return 10
    if line.holds(number) > 0:
        return 16
    line.owners[number].closed = True
    sweep(line)
    return 0

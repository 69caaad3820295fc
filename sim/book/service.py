"""One tick (section 7), in both disciplines."""

from book.eligibility import charge_end, sweep
from book.limits import CLOCK_END


def first_eligible(line):
    """Section 7, step 1: the packet that is taken of the held ones with eligibility at most t. They stand in the order offered, and min gives the first of equals."""
    eligible = [p for p in line.held if p.eligibility <= line.clock]
    if not eligible:
        return None
    if line.has_frames():
        return eligible[0]
    return min(eligible, key=lambda p: (line.owners[p.connection].level, p.eligibility))


def first_early(line):
    """Section 7, step 1: with levels and the setting on, the earliest offered of the held packets of connections by their gap."""
    if line.has_levels() and line.link.setting == 1:
        for p in line.held:
            if not line.owners[p.connection].stamped:
                return p
    return None


def choice(line):
    """Section 7, step 1: the first of these that there is."""
    packet = first_eligible(line)
    if packet is not None:
        return packet
    if line.notices:
        return line.notices[0]
    return first_early(line)


def begin(line):
    """Section 7, step 1: an idle line takes what is next."""
    if line.service is None and line.silence == 0:
        line.service = choice(line)
        if line.service is not None:
            line.to_go = line.service.length


def send(line):
    """Section 7, step 2: what departed, if something did."""
    if line.service is None:
        if line.silence > 0:
            line.silence -= 1
        return None
    line.to_go -= 1
    if line.to_go > 0:
        return None
    departed = line.service
    if line.notices and departed is line.notices[0]:
        line.notices.pop(0)
    else:
        line.held.remove(departed)
    line.service = None
    line.silence = line.link.silence
    return departed


def verdict(line):
    """Section 6: the verdict of a tick."""
    if line.link is None:
        return 2
    if line.clock >= CLOCK_END:
        return 13
    return 0


def tick(line):
    """Section 7: one tick that is not refused; what departed in it, with finish t + 1, the new clock."""
    begin(line)
    departed = send(line)
    line.clock += 1
    if line.has_levels():
        sweep(line)
    return departed


# Many ticks at once

def quiet_ticks(line):
    """Section 10, "TK": for how many ticks from now on nothing starts, departs or is freed."""
    t = line.clock
    if line.service is not None:
        quiet = line.to_go - 1
    elif line.silence > 0:
        quiet = line.silence
    elif choice(line) is not None:
        quiet = 0
    elif line.held:
        quiet = min(p.eligibility for p in line.held) - t
    else:
        quiet = CLOCK_END - t
    if line.has_levels():
        for c in line.owners.values():
            if c.closed:
                quiet = min(quiet, charge_end(line.link, c) - 1 - t)
    return min(quiet, CLOCK_END - t)


def pass_over(line, ticks):
    """Section 10, "TK": that many quiet ticks. What is in service sends, or a silence runs."""
    line.clock += ticks
    if line.service is not None:
        line.to_go -= ticks
    elif line.silence > 0:
        line.silence -= ticks

"""The discipline of frames (section 5; the order of the verdicts is that of section 6)."""

from book.admission import refused
from book.limits import CLOCK_END, MAX_CONNECTIONS, MAX_FRAME, MAX_LARGEST, MAX_PLACES, MAX_RESERVED, MAX_SILENCE, MAX_UNITS, cost
from book.line import Packet


def framing_within(link):
    """Section 5, "The link": its limits."""
    return (1 <= link.frame <= MAX_FRAME
            and 1 <= link.largest <= MAX_LARGEST
            and link.silence <= MAX_SILENCE
            and cost(link, link.largest) <= link.frame)


def share_within(share):
    """Section 5, "A connection": its limits."""
    return 1 <= share.units <= MAX_UNITS and 1 <= share.places <= MAX_PLACES


def admit(line, share):
    """Sections 6 and 8: verdict, number, level and units of an admission with r and p."""
    link = line.link
    if not line.has_frames():
        return refused(2)
    if not share_within(share):
        return refused(6)
    if len(line.owners) >= MAX_CONNECTIONS:
        return refused(7)
    counted = list(line.owners.values()) + [share]
    frame_sum = sum(each.units for each in counted) + cost(link, link.largest)
    if frame_sum > link.frame:
        return refused(8, 0, frame_sum - link.frame)
    if sum(each.places for each in counted) > MAX_RESERVED:
        return refused(9)
    number = len(line.owners)
    line.owners[number] = share
    return 0, number, 0, 0


def next_frame(line):
    """Section 5, "Frames": the start of the next frame."""
    frame = line.link.frame
    return (line.clock // frame + 1) * frame


def used(line, number):
    """Section 5, "Used" by a connection at the present tick."""
    return sum(cost(line.link, p.length) for p in line.held if p.connection == number and p.eligibility > line.clock)


def offer_verdict(line, number, length):
    """Section 6: the verdict of an offer, with frames set."""
    if number not in line.owners:
        return 10
    if not 1 <= length <= line.link.largest:
        return 11
    share = line.owners[number]
    if line.holds(number) >= share.places:
        return 12
    if line.clock >= CLOCK_END:
        return 13
    if used(line, number) + cost(line.link, length) > share.units:
        return 19
    return 0


def offer(line, number, length, tag):
    """Section 8: verdict and eligibility of an offer, with frames set."""
    verdict = offer_verdict(line, number, length)
    if verdict > 0:
        return verdict, 0
    eligibility = next_frame(line)
    line.held.append(Packet(number, length, tag, line.clock, eligibility))
    return 0, eligibility

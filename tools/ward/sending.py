"""`ward trace`: a trace of a ward, in which each line sends in its own way. The proved program says which number each pump has."""

import random
from collections import deque
from itertools import islice
from typing import NamedTuple

from ward import records
from ward.ends import WRONG_USE, Ended, cannot_read
from ward.figures import Share, Stamps
from ward.questions import in_turn, must_stand
from ward.wards import WAYS

# What `bursts` sends at once, and how many packets `wild` sends for each that it may.
BURST, WILD = 4, 6
LONGEST_TICKS = 65_535
# The bytes of a trace, and of its shortest offer: so many offers are never too few to see that there are too many.
LONGEST_TRACE, SHORTEST_OFFER = 16_777_216, 8
TAGS = 2**32


class Pace(NamedTuple):
    """How often a line may send to keep its word: a packet each so many ticks, so many in each window, 0 where it has no average; and of which size."""

    gap: int
    packets: int
    window: int
    size: int


class Offer(NamedTuple):
    """A packet: when it comes, of which pump by its place in the ward (notices stand behind the pumps), and the bytes of its record."""

    tick: int
    place: int
    record: bytes


def pace_of(figures, link):
    """The pace of a pump. On a link of frames at most half as many packets as it has places come in a frame, with their silences no more than its units; None
    where not even one does."""
    if not isinstance(figures, Share):
        packets = figures.window // figures.average if getattr(figures, "average", 0) else 0
        return Pace(max(1, figures.gap), packets, figures.window if packets else 0, figures.size)
    for packets in range(max(1, figures.places // 2), 0, -1):
        size = min(link.largest, figures.units // packets - link.silence)
        if size > 0:
            frames = 1 if figures.places > 1 else 2
            return Pace(-(-frames * link.length // packets), 0, 0, size)
    return None


def keeps(pace, start, end):
    """The ticks of a line that keeps its word and sends as soon as it may."""
    sent, tick = deque(maxlen=pace.packets or 1), start
    while tick < end:
        yield tick
        sent.append(tick)
        tick += pace.gap
        if len(sent) == pace.packets:
            tick = max(tick, sent[0] + pace.window)


def at_random(pace, start, end, numbers):
    """A packet each two gaps at the most, and as often sooner as later than a gap."""
    tick = start + numbers.randrange(2 * pace.gap)
    while tick < end:
        yield tick
        tick += numbers.randint(1, 2 * pace.gap)


def ticks_of(sending, pace, ticks, numbers):
    """When a line sends, up to the end of the trace or to its own."""
    start, end = sending.start, min(ticks, sending.stop + 1)
    if sending.way == "at":
        return sorted(tick for tick in sending.ticks if start <= tick < end)
    if sending.way == "every":
        return range(start, end, sending.every)
    if sending.way == "nothing" or pace is None:
        return ()
    if sending.way == "keeps":
        return keeps(pace, start, end)
    if sending.way == "bursts":
        return (tick for tick in range(start, end, BURST * pace.gap) for _ in range(BURST))
    if sending.way == "wild":
        return range(start, end, max(1, pace.gap // WILD))
    return at_random(pace, start, end, numbers)


def pump_offers(ward, place, number, ticks, seed):
    """The offers of a pump under its number. One by stamps sends its packets half of its allowance behind their stamps."""
    pump = ward.pumps[place]
    pace, numbers = pace_of(pump.figures, ward.link), random.Random(f"{seed} {pump.name}")
    for count, tick in enumerate(ticks_of(pump.sending, pace, ticks, numbers)):
        # how long a packet is hangs on the way alone, so that one that can't keep its word offers something too
        most = pace.size if pace else 1
        length, tag = numbers.randint(1, most) if pump.sending.way == "random" else most, (pump.sending.tags + count) % TAGS
        if isinstance(pump.figures, Stamps):
            late = pump.figures.allowance // 2
            yield Offer(tick + late, place, records.offer_stamped(number, length, tag, tick))
        else:
            yield Offer(tick, place, records.offer(number, length, tag))


def notice_offers(ward, place, ticks, seed):
    """The notices of a sender; `keeps` and the ways that hang on a gap go by ten times its size."""
    sender = ward.notices[place - len(ward.pumps)]
    pace, numbers = Pace(10 * max(1, sender.size), 0, 0, sender.size), random.Random(f"{seed} {sender.name}")
    for count, tick in enumerate(ticks_of(sender.sending, pace, ticks, numbers)):
        yield Offer(tick, place, records.notice(sender.size, (sender.sending.tags + count) % TAGS))


def waits(count):
    """So many ticks, in as few records as they take."""
    return records.ticks(LONGEST_TICKS) * (count // LONGEST_TICKS) + (records.ticks(count % LONGEST_TICKS) if count % LONGEST_TICKS else b"")


def offers(ward, ticks, seed):
    """All offers of a ward in order of time, at one tick in the order of the ward. A pump that is refused goes on under the number that its refusal names,
    which is nobody's."""
    must_stand(ward)
    numbers = [answer.number for answer in in_turn(ward.link, [pump.figures for pump in ward.pumps])]
    made = [pump_offers(ward, place, number, ticks, seed) for place, number in enumerate(numbers)]
    made += [notice_offers(ward, place, ticks, seed) for place in range(len(ward.pumps), len(ward.pumps) + len(ward.notices))]
    most = LONGEST_TRACE // SHORTEST_OFFER + 1
    found = list(islice((offer for each in made for offer in each if offer.tick < ticks), most))
    if len(found) == most:
        raise too_long(ward)
    return sorted(found, key=lambda offer: (offer.tick, offer.place))


def too_long(ward):
    return cannot_read(ward.path, f"a trace has at most {LONGEST_TRACE} bytes, and this would have more; fewer ticks, please")


def trace(ward, ticks, seed):
    """The bytes of a trace: the link, the pumps, their offers, each at its tick, and ticks up to the end."""
    made, clock = [ward.link.record(), *(pump.figures.record() for pump in ward.pumps)], 0
    for offer in offers(ward, ticks, seed):
        made += [waits(offer.tick - clock), offer.record]
        clock = offer.tick
    whole = b"".join([*made, waits(ticks - clock)])
    if len(whole) > LONGEST_TRACE:
        raise too_long(ward)
    return whole


def with_ways(ward, changed):
    """The ward with other ways of sending for some pumps, each as NAME=WAY."""
    ways = {}
    for each in changed:
        name, _, way = each.rpartition("=")
        if way not in WAYS:
            raise Ended(f"--sends {each}: NAME=WAY, please, where WAY is one of {', '.join(WAYS)}", WRONG_USE)
        if name not in [pump.name for pump in ward.pumps]:
            raise Ended(f"--sends {each}: the ward has no pump {name!r}", WRONG_USE)
        ways[name] = way
    return ward._replace(pumps=tuple(pump._replace(sending=pump.sending._replace(way=ways.get(pump.name, pump.sending.way))) for pump in ward.pumps))

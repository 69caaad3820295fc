"""The requests of a trace and its answers (sections 3, 8 and 10)."""

from book import admission, eligibility, frames, service
from book.admission import link_within, set_link
from book.line import Connection, FrameLink, LevelLink, Line, Share
from book.records import answer, read_record


# Links

def ask_lk(line, n, largest, silence, *bounds):
    """Section 10, LK: setting 0, no windows."""
    return ask_le(line, n, largest, silence, 0, *bounds)


def ask_le(line, n, largest, silence, setting, *bounds):
    """Section 10, LE: without windows."""
    return ask_lw(line, n, largest, silence, setting, *bounds, *[0] * n)


def ask_lw(line, n, largest, silence, setting, *tables):
    """Section 10, LW: n bounds, then n windows."""
    link = LevelLink(n, largest, silence, setting, tables[:n], tables[n:])
    return answer(b"LA", set_link(line, link, link_within))


def ask_lf(line, frame, largest, silence):
    """Section 10, LF: a link of frames."""
    link = FrameLink(frame, largest, silence)
    return answer(b"LA", set_link(line, link, frames.framing_within))


# Admissions and closes

def ask_cn(line, level, gap, size, window, average_gap):
    """Section 10, CN: admission to a level, by its gap."""
    c = Connection(level, gap, size, window, average_gap, False, 0)
    return answer(b"CA", *admission.admit(line, c))


def ask_cs(line, level, gap, size, allowance):
    """Section 10, CS: admission to a level, by stamps."""
    c = Connection(level, gap, size, 0, 0, True, allowance)
    return answer(b"CA", *admission.admit(line, c))


def ask_cf(line, units, places):
    """Section 10, CF: admission with r and p."""
    return answer(b"CA", *frames.admit(line, Share(units, places)))


def ask_cl(line, number):
    """Section 10, CL: close."""
    return answer(b"CD", eligibility.close(line, number))


# Offers and notices

def ask_pk(line, number, length, tag):
    """Section 10, PK: an offer without a stamp, by the discipline that is set (section 3)."""
    if line.has_frames():
        return answer(b"PA", *frames.offer(line, number, length, tag))
    return answer(b"PA", *eligibility.offer(line, number, length, tag, None))


def ask_ps(line, number, length, tag, stamp):
    """Section 10, PS: an offer with a stamp."""
    return answer(b"PA", *eligibility.offer(line, number, length, tag, stamp))


def ask_nq(line, length, tag):
    """Section 10, NQ: notice."""
    return answer(b"NA", *eligibility.notice(line, length, tag))


# Ticks

def departure(line, p):
    """Section 8: a departure; its finish is the clock after its tick."""
    return answer(b"DP", p.connection, p.tag, p.arrival, p.eligibility, line.clock)


def ask_tk(line, asked):
    """Section 10, "TK": that many ticks, quiet ones at once."""
    if asked == 0:
        return answer(b"TA", 2 if line.link is None else 0, 0)
    answers = []
    done = 0
    verdict = 0
    while done < asked:
        verdict = service.verdict(line)
        if verdict > 0:
            break
        quiet = min(service.quiet_ticks(line), asked - done)
        if quiet > 0:
            service.pass_over(line, quiet)
            done += quiet
            continue
        departed = service.tick(line)
        done += 1
        if departed is not None:
            answers.append(departure(line, departed))
    answers.append(answer(b"TA", verdict, done))
    return b"".join(answers)


ASKS = {
    b"LK": ask_lk, b"LE": ask_le, b"LW": ask_lw, b"LF": ask_lf,
    b"CN": ask_cn, b"CS": ask_cs, b"CF": ask_cf, b"CL": ask_cl,
    b"PK": ask_pk, b"PS": ask_ps, b"NQ": ask_nq, b"TK": ask_tk,
}


def replay(trace):
    """Section 10, "The answers of a trace", piece by piece."""
    line = Line()
    offset = 0
    while offset < len(trace):
        record = read_record(trace, offset)
        if record is None:
            yield answer(b"ER", 14, offset)
            return
        mark, numbers, offset = record
        yield ASKS[mark](line, *numbers)

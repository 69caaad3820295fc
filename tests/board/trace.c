/* Trace records and answer records (document 01, "Trace and answer records"; docs/RULES.md): a trace is run by the header's wrappers, and what they answer is
   written as the trace job writes it. */
#include <stdlib.h>

#include "board.h"

enum { TRACE_LIMIT = 16777216, MALFORMED = 14, MOST_FIELDS = 5 };

static void put_bytes(struct bytes *bytes, uint64_t number, unsigned width)
{
    if (bytes->length + width > bytes->room) {
        bytes->room = 2 * bytes->room + 4096;
        bytes->at = realloc(bytes->at, bytes->room);
        must(bytes->at != NULL, "no memory");
    }
    for (unsigned i = 0; i < width; i++)
        bytes->at[bytes->length++] = (uint8_t)(number >> (8 * i));
}

static void put_mark(struct bytes *bytes, const char mark[2])
{
    put_bytes(bytes, (uint8_t)mark[0], 1);
    put_bytes(bytes, (uint8_t)mark[1], 1);
}

/* A number of some bytes, low byte first, and the place behind it. */
static uint32_t take(const uint8_t **from, unsigned width)
{
    uint32_t number = 0;

    for (unsigned i = 0; i < width; i++)
        number |= (uint32_t)(*from)[i] << (8 * i);
    *from += width;
    return number;
}

/* The layouts: a mark, the call, the widths of its fields in the order of the call's numbers. */
static const struct layout {
    char mark[3];
    enum kind kind;
    unsigned width[MOST_FIELDS];
} layouts[] = {
    {"LF", LINK_FRAMES, {2, 2, 1, 0, 0}}, {"CN", ADMIT, {1, 2, 2, 2, 2}}, {"CS", ADMIT_STAMPED, {1, 2, 2, 2, 0}},
    {"CF", ADMIT_SHARE, {2, 2, 0, 0, 0}}, {"CL", CLOSE, {1, 0, 0, 0, 0}}, {"PK", OFFER, {1, 2, 4, 0, 0}},
    {"PS", OFFER_STAMPED, {1, 2, 4, 4, 0}}, {"NQ", NOTICE, {2, 4, 0, 0, 0}}, {"TK", TICKS, {2, 0, 0, 0, 0}},
};

static bool has_mark(const uint8_t *from, const char *mark)
{
    return from[0] == (uint8_t)mark[0] && from[1] == (uint8_t)mark[1];
}

/* An LK, an LE or an LW: the bounds, and the windows, of as many levels as it names. */
static size_t read_link(const uint8_t *from, size_t length, struct call *call)
{
    bool set = has_mark(from, "LE") || has_mark(from, "LW"), windows = has_mark(from, "LW");
    struct mtredovim_link_figures link = {0, 0, 0, 0, {0}, {0}};
    size_t levels = length > 2 ? from[2] : 0, size = (set ? 7u : 6u) + (windows ? 4u : 2u) * levels;

    if (levels < 1 || levels > MTREDOVIM_LEVELS || length < size)
        return 0;
    from += 2;
    link.levels = take(&from, 1);
    link.largest = take(&from, 2);
    link.silence = take(&from, 1);
    link.early = set ? take(&from, 1) : 0;
    for (size_t i = 0; i < levels; i++)
        link.bounds[i] = take(&from, 2);
    for (size_t i = 0; windows && i < levels; i++)
        link.windows[i] = take(&from, 2);
    *call = a_link_call(&link);
    return size;
}

/* The call that the record at `from` asks, and its bytes; 0 where it is malformed. */
static size_t read_record(const uint8_t *from, size_t length, struct call *call)
{
    if (length < 2)
        return 0;
    if (has_mark(from, "LK") || has_mark(from, "LE") || has_mark(from, "LW"))
        return read_link(from, length, call);
    for (size_t i = 0; i < sizeof layouts / sizeof layouts[0]; i++) {
        const struct layout *layout = &layouts[i];
        size_t size = 2;

        for (int k = 0; k < MOST_FIELDS; k++)
            size += layout->width[k];
        if (!has_mark(from, layout->mark))
            continue;
        if (length < size)
            return 0;
        *call = a_call(layout->kind, 0, 0, 0, 0, 0);
        from += 2;
        for (int k = 0; k < MOST_FIELDS; k++)
            call->number[k] = take(&from, layout->width[k]);
        return size;
    }
    return 0;
}

static void put_departure(struct bytes *answers, const struct mtredovim_departure *d)
{
    must(d->gone <= 1, "gone is 0 or 1");
    if (d->gone == 0) {
        must((d->connection | d->length | d->tag | d->arrival | d->eligibility | d->finish) == 0, "no departure, and its numbers are 0");
        return;
    }
    put_mark(answers, "DP");
    put_bytes(answers, d->connection, 1);
    put_bytes(answers, d->tag, 4);
    put_bytes(answers, d->arrival, 4);
    put_bytes(answers, d->eligibility, 4);
    put_bytes(answers, d->finish, 4);
}

static void put_two(struct bytes *answers, const char mark[2], uint32_t verdict, uint32_t number, unsigned width)
{
    put_mark(answers, mark);
    put_bytes(answers, verdict, 1);
    put_bytes(answers, number, width);
}

/* The asked ticks, up to the first that is refused. */
static void run_ticks(struct mtredovim_hub *hub, uint32_t asked, bool tested, enum pace pace, struct bytes *answers)
{
    uint32_t done = 0;
    struct told told;

    do {
        struct call call = a_call(TICKS, asked - done, 0, 0, 0, 0);

        if (asked != 0 && (pace == ONE_BY_ONE || done == 0))
            call = a_call(TICK, 0, 0, 0, 0, 0);
        told = make_hub_call(hub, &call, tested);
        if (call.kind == TICK)
            told.number = told.verdict == 0;
        must(told.number <= asked - done, "no more ticks than asked");
        must(told.verdict == 0 || told.number == 0, "a refusal, and no tick is done");
        done += told.number;
        put_departure(answers, &told.departure);
        must(told.departure.gone == 0 || told.departure.finish == mtredovim_hub_clock(hub), "the finish is the clock");
    } while (told.verdict == 0 && done < asked);
    put_two(answers, "TA", told.verdict, done, 2);
}

static void answer_call(struct mtredovim_hub *hub, const struct call *call, bool tested, enum pace pace, struct bytes *answers)
{
    struct told told;

    if (call->kind == TICKS) {
        run_ticks(hub, call->number[0], tested, pace, answers);
        return;
    }
    told = make_hub_call(hub, call, tested);
    switch (call->kind) {
    case LINK:
    case LINK_FRAMES: put_two(answers, "LA", told.verdict, 0, 0); break;
    case ADMIT:
    case ADMIT_STAMPED:
    case ADMIT_SHARE:
        put_two(answers, "CA", told.verdict, told.admission.number, 1);
        put_bytes(answers, told.admission.level, 1);
        put_bytes(answers, told.admission.units, 4);
        break;
    case CLOSE: put_two(answers, "CD", told.verdict, 0, 0); break;
    case NOTICE: put_two(answers, "NA", told.verdict, told.number, 4); break;
    default: put_two(answers, "PA", told.verdict, told.number, 4); break;
    }
}

void replay(const uint8_t *trace, size_t length, bool tested, enum pace pace, struct bytes *answers)
{
    struct mtredovim_hub *hub = lend_hub();
    struct call call;
    size_t at = 0;

    while (at < length) {
        size_t within = length < TRACE_LIMIT ? length : TRACE_LIMIT, size = at < within ? read_record(trace + at, within - at, &call) : 0;

        if (size == 0) {
            put_two(answers, "ER", MALFORMED, (uint32_t)at, 4);
            break;
        }
        answer_call(hub, &call, tested, pace, answers);
        at += size;
    }
    must(mtredovim_hub_test(hub) == MTREDOVIM_DONE, "the trace has left tables that are not sound");
    return_hub(hub);
}

/* The hub of a ward's line, from C: the hub itself (first part), and three questions that keep nothing (second part). Document 01 and document 02 say what
   it does; the archive's functions are proved to do that and nothing else.

   Link with libmtredovim.a, for x86-64 and its System V calling convention: `make -C examples/firmware` leaves it in target/staticlib. It is two archives put together, each
   of which can be linked alone: libboard.a, the hub, which `rt lib` makes of the crate board, and libfirmware.a, the questions, which it makes of firmware (tests/archive). They need
   `memcpy`, `memmove` and `memset`, the C library's or your own, and nothing else. They have no data of their own and take no memory but stack: a call of the hub some 25,000
   bytes, one that is tested once (below) some 2,300, a question some 21,000 (measured; docs/BENCHMARKS.md, "From C"). Every call returns.

   A tick is the time in which the line sends one unit; how long that is only the board knows. A packet is told apart by a tag, which the hub hands back and never
   looks at: what is in the packet stays with the caller.

   The least that there is to do (examples/firmware/board.c is a whole main loop):

       static struct mtredovim_hub hub;                                      // all zero: fresh
       struct mtredovim_link_figures link = {1, 4, 0, 0, {10}, {0}};         // one level, packets of up to 4 units, bound 10
       mtredovim_hub_link(&hub, &link);
       mtredovim_hub_admit(&hub, 1, 10, 4, 0, 0, &admission);                // a packet of up to 4 units every 10 ticks; admission.number names the connection
       mtredovim_hub_offer(&hub, admission.number, 2, tag, &eligibility);
       mtredovim_hub_tick(&hub, &departure);                                 // once in every tick; departure.gone: this packet has left

   Each returns a verdict, 0 where it is done. What is proved of any sequence of these calls on a fresh hub: each accepted packet of a level has left by its eligibility plus the
   bound of its level, whatever other connections do; one that keeps to its gap, and its average, is eligible on arrival and is never refused for room. On a line with frames
   each accepted packet has left by the end of the frame after that of its arrival. (crates/board/specs/Promises.antt)

   Threads and interrupts: the functions have no state of their own. Calls on different hubs may run at the same time. Two calls on one hub may not: the caller
   keeps an interrupt that offers packets out while another call on the same hub runs. */
#ifndef MTREDOVIM_H
#define MTREDOVIM_H

#include <stddef.h>
#include <stdint.h>

#ifdef __cplusplus
extern "C" {
#endif

/* ---- 1. The hub ---- */

/* How many numbers of 32 bits each table has, and how many tell of an admission and of a departure. */
enum {
    MTREDOVIM_LINE = 31,
    MTREDOVIM_CONNECTIONS = 5002,
    MTREDOVIM_PLACES = 10240,
    MTREDOVIM_NOTICES = 320,
    MTREDOVIM_LEVELS = 8,
    MTREDOVIM_ADMISSION = 3,
    MTREDOVIM_DEPARTURE = 7
};

/* The verdict that every call returns. 0: done. Any other: the call is refused, and no number of the hub has changed. Number 1 is tested first, else the lowest
   that applies is given. (14 is of recorded traces and is never returned here.) */
enum mtredovim_verdict {
    MTREDOVIM_DONE = 0,
    MTREDOVIM_NOT_SOUND = 1,       /* any call: the tables are not a state of a hub: somebody else wrote to them, or a length is wrong. Every later call says so too:
                                      begin anew with zeros; what was held is lost */
    MTREDOVIM_NO_LINK = 2,         /* no link is set; or what is asked is known to the other discipline only (below) */
    MTREDOVIM_LINK_IS_SET = 3,     /* a link: one is set already, of either discipline */
    MTREDOVIM_LINK_LIMIT = 4,      /* a link: a limit of it is broken */
    MTREDOVIM_NO_SUCH_LEVEL = 5,   /* an admission: the level is not 1 to the link's levels */
    MTREDOVIM_FIGURE_LIMIT = 6,    /* an admission: gap, size, average, allowance, r or p is outside its limits */
    MTREDOVIM_NO_NUMBER = 7,       /* an admission: no number of the 200 is free */
    MTREDOVIM_LEVEL_SHORT = 8,     /* an admission: the line can't promise it beside the others; `level` and `units` say where and by how much */
    MTREDOVIM_NO_PLACE = 9,        /* an admission: more than 2,048 places would be reserved */
    MTREDOVIM_NO_SUCH_NUMBER = 10, /* an offer, a close: the number does not stand, or is of the other kind */
    MTREDOVIM_LENGTH_LIMIT = 11,   /* an offer, a notice: the length is 0 or too great */
    MTREDOVIM_FULL = 12,           /* an offer: the connection holds as many packets as it has places */
    MTREDOVIM_CLOCK_ENDED = 13,    /* an offer, a notice, a tick: the clock is at 4,000,000,000 */
    MTREDOVIM_NOTICES_FULL = 15,   /* a notice: 64 wait */
    MTREDOVIM_HOLDS_PACKETS = 16,  /* a close: packets of the connection are held */
    MTREDOVIM_BAD_STAMP = 17,      /* an offer with a stamp: it lies past the present tick, or with the allowance before it or less than a gap after the last eligibility */
    MTREDOVIM_TOO_FAR_AHEAD = 18,  /* an offer, with `early` 1: it would be eligible more than its places times its gap past the present tick */
    MTREDOVIM_PAST_ITS_UNITS = 19  /* an offer on a line with frames: past the connection's r in this frame */
};

/* What a departure has in the place of a connection's number where a notice departed, and the number of an admission that is refused. */
enum { MTREDOVIM_A_NOTICE = 254, MTREDOVIM_NONE = 255 };

/* A hub: all that is kept between the calls, 62,372 bytes. All zero it is fresh: a static one is, any other is cleared with memset. The caller may copy it and read it
   (docs/CALLERS.md has the rows of the tables) and never writes to it.
   The line: 24 numbers of the discipline of levels, its link (levels, largest, silence, early, eight bounds, eight windows), clock, the number of the connection in
   service (254: a notice), its units to go (0: nothing is in service), ticks of silence to run; then 7 of the discipline of frames, its link (frame, largest,
   silence), clock, number, units to go, silence. The discipline that is not set is all zero. */
struct mtredovim_hub {
    uint32_t line[MTREDOVIM_LINE];
    uint32_t connections[MTREDOVIM_CONNECTIONS];
    uint32_t places[MTREDOVIM_PLACES];
    uint32_t notices[MTREDOVIM_NOTICES];
};

/* A link of levels. levels: 1 to 8, level 1 the most urgent. largest: S, the longest packet, 1 to 2,048 units. silence: ticks after each packet in which the line is
   quiet, 0 to 64. early: 0, or 1: packets may go before they are eligible while the line would idle. bounds: for each level the ticks within which a packet leaves
   once it is eligible; the first at least S plus the silence, rising strictly, at most 32,768; 0 past the levels. windows: all 0, or for each level at least its bound and at
   most 32,768, 0 past the levels: a finer admission test (document 02, R-12). */
struct mtredovim_link_figures {
    uint32_t levels;
    uint32_t largest;
    uint32_t silence;
    uint32_t early;
    uint32_t bounds[MTREDOVIM_LEVELS];
    uint32_t windows[MTREDOVIM_LEVELS];
};

/* What an admission is told: the connection's number, 0 to 199, or 255 where it is refused; with verdict 8 the lowest level that is short (0 on a line with frames)
   and by how many units, else 0 and 0. */
struct mtredovim_admission {
    uint32_t number;
    uint32_t level;
    uint32_t units;
};

/* What a tick tells: gone is 1 where a packet left with it, else 0, and all others are 0. connection: its number, 254 for a notice. length, tag: as they were offered.
   arrival: the tick of its offer. eligibility: the tick from which it could go. finish: the tick after its last unit, which is the clock now. */
struct mtredovim_departure {
    uint32_t gone;
    uint32_t connection;
    uint32_t length;
    uint32_t tag;
    uint32_t arrival;
    uint32_t eligibility;
    uint32_t finish;
};

/* The functions that are proved. Each is lent the four tables, each with its length in numbers, and what it asks besides; answers come through the pointers behind
   them, with every verdict: a refused admission is told {255, 0, 0}, with 8 its level and units in the place of the zeros; all else zeros. Any lengths and any numbers get
   an answer. The numbers at the end of each comment are the verdicts that it can get besides 0 and 1. The wrappers below call them with a struct mtredovim_hub.

   What is not checked is the pointers. The caller sees to it that each is aligned, not null, good for as many numbers as its length says (of an array: as it is
   declared), and that no two of one call overlap, while the function runs.

   A line has one of two disciplines, that of the link that is accepted first. Offers without a stamp, notices and ticks go to it. What only the other one knows gets
   2, a second link of either 3: with frames admissions of a level, offers with a stamp and closes; with levels admissions of a share. */

/* A link of levels, once: 3, 4. bounds and windows have eight numbers. */
uint32_t mtredovim_link(uint32_t *line, size_t line_len, const uint32_t *connections, size_t connections_len,
    const uint32_t *places, size_t places_len, const uint32_t *notices, size_t notices_len, uint32_t levels, uint32_t largest, uint32_t silence,
    uint32_t early, const uint32_t bounds[MTREDOVIM_LEVELS], const uint32_t windows[MTREDOVIM_LEVELS]);

/* A link of frames, once: 3, 4. frame: T, 1 to 32,768 ticks. largest: S, 1 to 2,048 units. silence: 0 to 64. S plus the silence is at most T. */
uint32_t mtredovim_link_frames(uint32_t *line, size_t line_len, const uint32_t *connections, size_t connections_len,
    const uint32_t *places, size_t places_len, const uint32_t *notices, size_t notices_len, uint32_t frame, uint32_t largest, uint32_t silence);

/* A connection that may send a packet of up to `size` units (1 to S) every `gap` ticks (1 to 65,535), at a level. With an average, window / average packets (1 to
   16, without a rest) in any window (at most 65,535): average is at least the gap; without one both are 0. 2, 5 to 9. */
uint32_t mtredovim_admit(uint32_t *line, size_t line_len, uint32_t *connections, size_t connections_len, const uint32_t *places, size_t places_len,
    const uint32_t *notices, size_t notices_len, uint32_t level, uint32_t gap, uint32_t size, uint32_t window, uint32_t average,
    uint32_t admission[MTREDOVIM_ADMISSION]);

/* A connection whose packets come from another hub and bring their eligibility there as a stamp. allowance, 0 to 65,535: the other hub's bound and the longest delay
   between the two (docs/CALLERS.md, "A line from another hub"). 2, 5 to 9. */
uint32_t mtredovim_admit_stamped(uint32_t *line, size_t line_len, uint32_t *connections, size_t connections_len,
    const uint32_t *places, size_t places_len, const uint32_t *notices, size_t notices_len, uint32_t level, uint32_t gap, uint32_t size,
    uint32_t allowance, uint32_t admission[MTREDOVIM_ADMISSION]);

/* A connection of a line with frames: `units` (r) for its packets and their silence in each frame, `room` (p) places, each 1 to 2,048. 2, 6 to 9. */
uint32_t mtredovim_admit_share(uint32_t *line, size_t line_len, uint32_t *connections, size_t connections_len,
    const uint32_t *places, size_t places_len, const uint32_t *notices, size_t notices_len, uint32_t units, uint32_t room,
    uint32_t admission[MTREDOVIM_ADMISSION]);

/* A packet of a connection that brings no stamp. eligibility: the tick from which it can go, 0 where it is refused. 2, 10 to 13, 18, 19. */
uint32_t mtredovim_offer(uint32_t *line, size_t line_len, uint32_t *connections, size_t connections_len, uint32_t *places, size_t places_len,
    const uint32_t *notices, size_t notices_len, uint32_t connection, uint32_t length, uint32_t tag, uint32_t *eligibility);

/* A packet that brings a stamp, which is its eligibility at the other hub. 2, 10 to 13, 17. */
uint32_t mtredovim_offer_stamped(uint32_t *line, size_t line_len, uint32_t *connections, size_t connections_len, uint32_t *places, size_t places_len,
    const uint32_t *notices, size_t notices_len, uint32_t connection, uint32_t length, uint32_t tag, uint32_t stamp, uint32_t *eligibility);

/* A housekeeping packet: it goes when no packet of a connection can. eligibility: the present tick. 2, 11, 13, 15. */
uint32_t mtredovim_notice(uint32_t *line, size_t line_len, const uint32_t *connections, size_t connections_len,
    const uint32_t *places, size_t places_len, uint32_t *notices, size_t notices_len, uint32_t length, uint32_t tag, uint32_t *eligibility);

/* The connection ends. It holds no packets; its number is given again, at once or once what it has sent is no longer counted. 2, 10, 16. */
uint32_t mtredovim_close(uint32_t *line, size_t line_len, uint32_t *connections, size_t connections_len, const uint32_t *places, size_t places_len,
    const uint32_t *notices, size_t notices_len, uint32_t connection);

/* One tick: the line goes on, and one packet may leave. 2, 13. */
uint32_t mtredovim_tick(uint32_t *line, size_t line_len, uint32_t *connections, size_t connections_len, uint32_t *places, size_t places_len,
    uint32_t *notices, size_t notices_len, uint32_t departure[MTREDOVIM_DEPARTURE]);

/* Up to n ticks, one by one, at once: up to the first with which a packet leaves, or n, or the clock's end. done: how many. The verdict is that of the first; with 0
   ticks asked it is 1 or 2 where these apply, else 0. Where fewer are done than asked and nothing has left, the clock has ended. Ticks in which nothing starts or
   ends are passed over together, up to 65,535 of them at once. 2, 13. */
uint32_t mtredovim_ticks(uint32_t *line, size_t line_len, uint32_t *connections, size_t connections_len, uint32_t *places, size_t places_len,
    uint32_t *notices, size_t notices_len, uint32_t n, uint32_t *done, uint32_t departure[MTREDOVIM_DEPARTURE]);

/* Whether the four tables are a sound hub: 0, or 1. Every call above asks this first. */
uint32_t mtredovim_test(const uint32_t *line, size_t line_len, const uint32_t *connections, size_t connections_len,
    const uint32_t *places, size_t places_len, const uint32_t *notices, size_t notices_len);

/* ---- The same, tested once ----

   The test costs more than the call: it goes over all rows (docs/BENCHMARKS.md, "From C", counts it). Each call above has a second form that leaves it out, with the
   same arguments and, on tables that are sound, the same answer and the same tables.

   THE CALLER'S DUTY: the tables are sound and have their lengths. On others nothing is promised, not even that the function returns or writes only where it may. They
   are sound
     - when all are zero, or mtredovim_test has answered 0, or a call of the first form has answered anything but 1,
     - and since then nothing has written to them but calls of this header, of either form, each of which leaves sound tables (proved).
   So a board tests once, at its start or when memory may have been damaged, and then calls these. What it gives up is that damage is noticed. */
uint32_t mtredovim_link_tested(uint32_t *line, size_t line_len, const uint32_t *connections, size_t connections_len,
    const uint32_t *places, size_t places_len, const uint32_t *notices, size_t notices_len, uint32_t levels, uint32_t largest, uint32_t silence,
    uint32_t early, const uint32_t bounds[MTREDOVIM_LEVELS], const uint32_t windows[MTREDOVIM_LEVELS]);
uint32_t mtredovim_link_frames_tested(uint32_t *line, size_t line_len, const uint32_t *connections, size_t connections_len,
    const uint32_t *places, size_t places_len, const uint32_t *notices, size_t notices_len, uint32_t frame, uint32_t largest, uint32_t silence);
uint32_t mtredovim_admit_tested(uint32_t *line, size_t line_len, uint32_t *connections, size_t connections_len,
    const uint32_t *places, size_t places_len, const uint32_t *notices, size_t notices_len, uint32_t level, uint32_t gap, uint32_t size,
    uint32_t window, uint32_t average, uint32_t admission[MTREDOVIM_ADMISSION]);
uint32_t mtredovim_admit_stamped_tested(uint32_t *line, size_t line_len, uint32_t *connections, size_t connections_len,
    const uint32_t *places, size_t places_len, const uint32_t *notices, size_t notices_len, uint32_t level, uint32_t gap, uint32_t size,
    uint32_t allowance, uint32_t admission[MTREDOVIM_ADMISSION]);
uint32_t mtredovim_admit_share_tested(uint32_t *line, size_t line_len, uint32_t *connections, size_t connections_len,
    const uint32_t *places, size_t places_len, const uint32_t *notices, size_t notices_len, uint32_t units, uint32_t room,
    uint32_t admission[MTREDOVIM_ADMISSION]);
uint32_t mtredovim_offer_tested(uint32_t *line, size_t line_len, uint32_t *connections, size_t connections_len, uint32_t *places, size_t places_len,
    const uint32_t *notices, size_t notices_len, uint32_t connection, uint32_t length, uint32_t tag, uint32_t *eligibility);
uint32_t mtredovim_offer_stamped_tested(uint32_t *line, size_t line_len, uint32_t *connections, size_t connections_len,
    uint32_t *places, size_t places_len, const uint32_t *notices, size_t notices_len, uint32_t connection, uint32_t length, uint32_t tag,
    uint32_t stamp, uint32_t *eligibility);
uint32_t mtredovim_notice_tested(uint32_t *line, size_t line_len, const uint32_t *connections, size_t connections_len,
    const uint32_t *places, size_t places_len, uint32_t *notices, size_t notices_len, uint32_t length, uint32_t tag, uint32_t *eligibility);
uint32_t mtredovim_close_tested(uint32_t *line, size_t line_len, uint32_t *connections, size_t connections_len,
    const uint32_t *places, size_t places_len, const uint32_t *notices, size_t notices_len, uint32_t connection);
uint32_t mtredovim_tick_tested(uint32_t *line, size_t line_len, uint32_t *connections, size_t connections_len, uint32_t *places, size_t places_len,
    uint32_t *notices, size_t notices_len, uint32_t departure[MTREDOVIM_DEPARTURE]);
uint32_t mtredovim_ticks_tested(uint32_t *line, size_t line_len, uint32_t *connections, size_t connections_len, uint32_t *places, size_t places_len,
    uint32_t *notices, size_t notices_len, uint32_t n, uint32_t *done, uint32_t departure[MTREDOVIM_DEPARTURE]);

/* ---- The same, with a struct mtredovim_hub ---- */

/* The tables of a hub, as every function above takes them first; `hub` is looked at four times. */
#define MTREDOVIM_TABLES(hub)                                                                                                  \
    (hub)->line, MTREDOVIM_LINE, (hub)->connections, MTREDOVIM_CONNECTIONS, (hub)->places, MTREDOVIM_PLACES, (hub)->notices, MTREDOVIM_NOTICES

static inline void mtredovim_put_admission(struct mtredovim_admission *admission, const uint32_t told[MTREDOVIM_ADMISSION])
{
    admission->number = told[0];
    admission->level = told[1];
    admission->units = told[2];
}

static inline void mtredovim_put_departure(struct mtredovim_departure *departure, const uint32_t told[MTREDOVIM_DEPARTURE])
{
    departure->gone = told[0];
    departure->connection = told[1];
    departure->length = told[2];
    departure->tag = told[3];
    departure->arrival = told[4];
    departure->eligibility = told[5];
    departure->finish = told[6];
}

/* The present tick: that of frames where a link of frames is set, else that of levels. */
static inline uint32_t mtredovim_hub_clock(const struct mtredovim_hub *hub)
{
    return hub->line[24] != 0 ? hub->line[27] : hub->line[20];
}

static inline uint32_t mtredovim_hub_test(const struct mtredovim_hub *hub)
{
    return mtredovim_test(MTREDOVIM_TABLES(hub));
}

static inline uint32_t mtredovim_hub_link(struct mtredovim_hub *hub, const struct mtredovim_link_figures *link)
{
    return mtredovim_link(MTREDOVIM_TABLES(hub), link->levels, link->largest, link->silence, link->early, link->bounds, link->windows);
}

static inline uint32_t mtredovim_hub_link_frames(struct mtredovim_hub *hub, uint32_t frame, uint32_t largest, uint32_t silence)
{
    return mtredovim_link_frames(MTREDOVIM_TABLES(hub), frame, largest, silence);
}

static inline uint32_t mtredovim_hub_admit(struct mtredovim_hub *hub, uint32_t level, uint32_t gap, uint32_t size, uint32_t window, uint32_t average,
    struct mtredovim_admission *admission)
{
    uint32_t told[MTREDOVIM_ADMISSION];
    uint32_t verdict = mtredovim_admit(MTREDOVIM_TABLES(hub), level, gap, size, window, average, told);

    mtredovim_put_admission(admission, told);
    return verdict;
}

static inline uint32_t mtredovim_hub_admit_stamped(struct mtredovim_hub *hub, uint32_t level, uint32_t gap, uint32_t size, uint32_t allowance,
    struct mtredovim_admission *admission)
{
    uint32_t told[MTREDOVIM_ADMISSION];
    uint32_t verdict = mtredovim_admit_stamped(MTREDOVIM_TABLES(hub), level, gap, size, allowance, told);

    mtredovim_put_admission(admission, told);
    return verdict;
}

static inline uint32_t mtredovim_hub_admit_share(struct mtredovim_hub *hub, uint32_t units, uint32_t room, struct mtredovim_admission *admission)
{
    uint32_t told[MTREDOVIM_ADMISSION];
    uint32_t verdict = mtredovim_admit_share(MTREDOVIM_TABLES(hub), units, room, told);

    mtredovim_put_admission(admission, told);
    return verdict;
}

static inline uint32_t mtredovim_hub_offer(struct mtredovim_hub *hub, uint32_t connection, uint32_t length, uint32_t tag, uint32_t *eligibility)
{
    return mtredovim_offer(MTREDOVIM_TABLES(hub), connection, length, tag, eligibility);
}

static inline uint32_t mtredovim_hub_offer_stamped(struct mtredovim_hub *hub, uint32_t connection, uint32_t length, uint32_t tag, uint32_t stamp,
    uint32_t *eligibility)
{
    return mtredovim_offer_stamped(MTREDOVIM_TABLES(hub), connection, length, tag, stamp, eligibility);
}

static inline uint32_t mtredovim_hub_notice(struct mtredovim_hub *hub, uint32_t length, uint32_t tag, uint32_t *eligibility)
{
    return mtredovim_notice(MTREDOVIM_TABLES(hub), length, tag, eligibility);
}

static inline uint32_t mtredovim_hub_close(struct mtredovim_hub *hub, uint32_t connection)
{
    return mtredovim_close(MTREDOVIM_TABLES(hub), connection);
}

static inline uint32_t mtredovim_hub_tick(struct mtredovim_hub *hub, struct mtredovim_departure *departure)
{
    uint32_t told[MTREDOVIM_DEPARTURE];
    uint32_t verdict = mtredovim_tick(MTREDOVIM_TABLES(hub), told);

    mtredovim_put_departure(departure, told);
    return verdict;
}

static inline uint32_t mtredovim_hub_ticks(struct mtredovim_hub *hub, uint32_t n, uint32_t *done, struct mtredovim_departure *departure)
{
    uint32_t told[MTREDOVIM_DEPARTURE];
    uint32_t verdict = mtredovim_ticks(MTREDOVIM_TABLES(hub), n, done, told);

    mtredovim_put_departure(departure, told);
    return verdict;
}

/* .. and tested once: THE CALLER'S DUTY above. */
static inline uint32_t mtredovim_hub_link_tested(struct mtredovim_hub *hub, const struct mtredovim_link_figures *link)
{
    return mtredovim_link_tested(MTREDOVIM_TABLES(hub), link->levels, link->largest, link->silence, link->early, link->bounds, link->windows);
}

static inline uint32_t mtredovim_hub_link_frames_tested(struct mtredovim_hub *hub, uint32_t frame, uint32_t largest, uint32_t silence)
{
    return mtredovim_link_frames_tested(MTREDOVIM_TABLES(hub), frame, largest, silence);
}

static inline uint32_t mtredovim_hub_admit_tested(struct mtredovim_hub *hub, uint32_t level, uint32_t gap, uint32_t size, uint32_t window,
    uint32_t average, struct mtredovim_admission *admission)
{
    uint32_t told[MTREDOVIM_ADMISSION];
    uint32_t verdict = mtredovim_admit_tested(MTREDOVIM_TABLES(hub), level, gap, size, window, average, told);

    mtredovim_put_admission(admission, told);
    return verdict;
}

static inline uint32_t mtredovim_hub_admit_stamped_tested(struct mtredovim_hub *hub, uint32_t level, uint32_t gap, uint32_t size, uint32_t allowance,
    struct mtredovim_admission *admission)
{
    uint32_t told[MTREDOVIM_ADMISSION];
    uint32_t verdict = mtredovim_admit_stamped_tested(MTREDOVIM_TABLES(hub), level, gap, size, allowance, told);

    mtredovim_put_admission(admission, told);
    return verdict;
}

static inline uint32_t mtredovim_hub_admit_share_tested(struct mtredovim_hub *hub, uint32_t units, uint32_t room,
    struct mtredovim_admission *admission)
{
    uint32_t told[MTREDOVIM_ADMISSION];
    uint32_t verdict = mtredovim_admit_share_tested(MTREDOVIM_TABLES(hub), units, room, told);

    mtredovim_put_admission(admission, told);
    return verdict;
}

static inline uint32_t mtredovim_hub_offer_tested(struct mtredovim_hub *hub, uint32_t connection, uint32_t length, uint32_t tag,
    uint32_t *eligibility)
{
    return mtredovim_offer_tested(MTREDOVIM_TABLES(hub), connection, length, tag, eligibility);
}

static inline uint32_t mtredovim_hub_offer_stamped_tested(struct mtredovim_hub *hub, uint32_t connection, uint32_t length, uint32_t tag,
    uint32_t stamp, uint32_t *eligibility)
{
    return mtredovim_offer_stamped_tested(MTREDOVIM_TABLES(hub), connection, length, tag, stamp, eligibility);
}

static inline uint32_t mtredovim_hub_notice_tested(struct mtredovim_hub *hub, uint32_t length, uint32_t tag, uint32_t *eligibility)
{
    return mtredovim_notice_tested(MTREDOVIM_TABLES(hub), length, tag, eligibility);
}

static inline uint32_t mtredovim_hub_close_tested(struct mtredovim_hub *hub, uint32_t connection)
{
    return mtredovim_close_tested(MTREDOVIM_TABLES(hub), connection);
}

static inline uint32_t mtredovim_hub_tick_tested(struct mtredovim_hub *hub, struct mtredovim_departure *departure)
{
    uint32_t told[MTREDOVIM_DEPARTURE];
    uint32_t verdict = mtredovim_tick_tested(MTREDOVIM_TABLES(hub), told);

    mtredovim_put_departure(departure, told);
    return verdict;
}

static inline uint32_t mtredovim_hub_ticks_tested(struct mtredovim_hub *hub, uint32_t n, uint32_t *done, struct mtredovim_departure *departure)
{
    uint32_t told[MTREDOVIM_DEPARTURE];
    uint32_t verdict = mtredovim_ticks_tested(MTREDOVIM_TABLES(hub), n, done, told);

    mtredovim_put_departure(departure, told);
    return verdict;
}

/* ---- 2. The questions ---- */

/* They answer by the same rules as the hub's own calls (document 01, "Two questions from C firmware"; document 02, R-2, R-4, R-6 to ). They may be called at any
   time and from any thread: they keep nothing, write nothing that the caller can see, and take some 21,000 bytes of stack. */

/* The tick at which the next packet of a connection without an average is eligible, were it accepted now, and the connection is regulated by its gap. Of one
   by stamps there is nothing to ask: the tick is the packet's stamp plus the allowance. Any numbers are allowed, also those that no hub gives.
     flag  0: no packet of the connection was accepted yet; any other number: one was. What another sent under its number before doesn't count
     last  the eligibility of the one accepted last, in ticks; with flag 0 it doesn't count
     gap   the connection's gap, in ticks
     now   the present tick
   Answer, in ticks: `now` with flag 0, else the greater of `now` and `last` + `gap`. The sum can pass 32 bits, the answer can't pass 64.
   With an average of n packets to a window, ask twice: what this answers, and the same with the eligibility of the n-th packet before (flag 0 where there
   is none) and the window for `last` and `gap`. The greater of the two answers is the tick. */
uint64_t mtredovim_next_eligibility(uint32_t flag, uint32_t last, uint32_t gap, uint32_t now);

/* Which level would be short, were the connections of all these rows admitted to the link.
     lk    one whole link record, numbers low byte first. A link without windows as its `LK`: 4C 4B, n (1 byte), S (2, units), silence (1, ticks), n delay
           bounds (2 each, ticks); lk_len is 6 + 2n. A link with windows as its `LW`: 4C 57, n (1), S (2), silence (1), setting (1), n delay bounds (2
           each), n windows (2 each, ticks); lk_len is 7 + 4n
     rows  a connection to each 9 bytes, in any order, as a `CN` record has them behind its mark: level (1), gap (2, ticks), size (2, units), window (2,
           ticks), average gap (2, ticks), the last two both 0 where it has no average; rows_len is 9 times their number, at most 200
   Answer: 0 if the level test holds at every level, else the lowest level 1 to 8 at which it fails; with windows the test is the finer one of
   255 if the question is not well asked: a length doesn't fit, the bytes are no `LK` and no `LW`, a limit of the link or of a connection
   is broken, or there are more than 200 rows. The limits of windows: each is at least its level's delay bound and at most 32,768; or all are 0,
   and the answer is that for the `LK`. The setting is 0 or 1, which changes no answer. The limits of an average: the average gap is at least the
   gap and divides the window, 1 to 16 times; one of the two alone breaks them. A bad row gives 255 wherever it stands, also where a level fails.
   No rows and a good `LK` or `LW`: 0. Whether all reservations find room is not asked.
   For the answer that an admission gets, hand in the hub's link, one that was set by an `LE` as the `LK` of its other fields, a row for the
   newcomer and one for each connection of the hub, also for each that is closed and still charged: those count as before. A free number has no
   row. One by stamps has a row with its level, gap and size and two zeros: the level test counts it as one regulated by its gap. Its allowance
   is not tested here.

   The caller sees to it that each pointer is valid for reading as many bytes as its length says, while the function runs. With length 0 any
   pointer will do that is not null: nothing is read there. Null is never allowed. */
uint8_t mtredovim_short_level(const uint8_t *lk, size_t lk_len, const uint8_t *rows, size_t rows_len);

/* By how many units that level is over, asked with the same bytes and under the same conditions: the level's sum with S, less its delay bound, where the
   silence is added to every size and to S. With windows a level has more than one sum, each with its limit: its sum within the window, then one for each
   beta from 0 on. The first that is above its limit counts, less the limit.
   Answer, in units: 0 exactly where mtredovim_short_level answers 0 or 255. Where an admission is refused with 8, the two answers for the hub's
   connections, charged ones too, and the newcomer are level and units of its `CA`. A sum can reach 13,841,205,312 and the units 32,768 less: more
   than 32 bits hold, so the answer has 64. */
uint64_t mtredovim_short_units(const uint8_t *lk, size_t lk_len, const uint8_t *rows, size_t rows_len);

#ifdef __cplusplus
}
#endif

#endif

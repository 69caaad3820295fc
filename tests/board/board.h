/* What the parts of the test of the hub from C share: four tables with guards about them, the calls on them, records, chance. */
#ifndef BOARD_H
#define BOARD_H

#include <stdbool.h>
#include <stddef.h>
#include <stdint.h>
#include <stdio.h>

#include "mtredovim.h"

/* Ends the program with this text where something is not as it must be. */
void must(bool holds, const char *what);

/* ---- tables.c: four lent tables, each up to a page that may not be touched; so many numbers of each are lent. */

enum { LINE, CONNECTIONS, PLACES, NOTICES, TABLES };

struct lent {
    uint32_t *table[TABLES];
    size_t length[TABLES];
};

/* The right lengths. */
extern const size_t whole[TABLES];

/* Tables of these lengths, all zero; given back by return_tables. */
struct lent lend_tables(const size_t length[TABLES]);
void return_tables(struct lent *lent);

/* A hub, all zero, up to such a page; given back by return_hub. */
struct mtredovim_hub *lend_hub(void);
void return_hub(struct mtredovim_hub *hub);

/* The numbers of one in the place of the other's, as many as both have. */
void copy_tables(struct lent *to, const struct lent *from);
bool same_tables(const struct lent *a, const struct lent *b);

/* ---- calls.c: the calls of C as values. */

enum kind { LINK, LINK_FRAMES, ADMIT, ADMIT_STAMPED, ADMIT_SHARE, OFFER, OFFER_STAMPED, NOTICE, CLOSE, TICK, TICKS, KINDS };

/* The most numbers that a call asks: a link's, its eight bounds, its eight windows. */
enum { MOST_ASKED = 4 + 2 * MTREDOVIM_LEVELS };

struct call {
    enum kind kind;
    uint32_t number[MOST_ASKED];
};

struct told {
    uint32_t verdict;
    uint32_t number;
    struct mtredovim_admission admission;
    struct mtredovim_departure departure;
};

/* The name of a call behind mtredovim_, and how many numbers it asks. */
extern const char *const name_of[KINDS];
extern const int asked_by[KINDS];

/* A call whose first numbers are these, in the order of the function's. */
struct call a_call(enum kind kind, uint32_t a, uint32_t b, uint32_t c, uint32_t d, uint32_t e);
struct call a_link_call(const struct mtredovim_link_figures *link);

/* Makes the call by the function, in the first form or, where `tested`, in the form that leaves the test out. */
struct told make_call(struct lent *lent, const struct call *call, bool tested);

/* The same by the header's wrapper. */
struct told make_hub_call(struct mtredovim_hub *hub, const struct call *call, bool tested);

/* mtredovim_test. */
uint32_t test_tables(const struct lent *lent);

/* ---- slips.c: an archive that is wrong, for the test of the test. 0: none. */

enum { SLIPS = 18 };
extern int slip;
void slip_before(struct lent *lent, struct call *call);
void slip_after(struct lent *lent, const struct call *call, bool tested, struct told *told);

/* ---- lines.c: calls and answers as lines of text, as `sim --calls` reads and writes them. */

struct lines {
    FILE *asked, *answered;
};

/* The tables are lent: whether they are sound is answered. */
void say_lent(struct lines *lines, const struct lent *lent);

/* A call, made on tables that stood at `before` and stand at `after`; `kept` where they stay so. */
void say_call(struct lines *lines, bool kept, const struct call *call, const struct told *told, const struct lent *before, const struct lent *after);

/* ---- trace.c: a trace in, its answers out, by the wrappers; ticks one by one, or of each record the first by itself and then many at once. */

struct bytes {
    uint8_t *at;
    size_t length;
    size_t room;
};

enum pace { ONE_BY_ONE, MIXED };
void replay(const uint8_t *trace, size_t length, bool tested, enum pace pace, struct bytes *answers);

/* ---- pipe.c: blocks of numbers in and out, as tests/pipe.py has them, for tests/hub-cases and tests/instructions. */
void serve_pipe(void);

/* ---- random.c: so many random calls on fresh hubs. */

struct chance {
    uint64_t state;
};

uint32_t draw(struct chance *chance);
/* 0 to n - 1. */
uint32_t below(struct chance *chance, uint32_t n);

void random_calls(uint64_t seed, unsigned long calls, struct lines *lines);

/* Makes a call on these tables in both forms, sees that they agree, says it and gives what was told. `before` and `other` are tables of the same lengths to work with. */
struct told say_both(struct lines *lines, bool kept, const struct call *call, struct lent *lent, struct lent *before, struct lent *other);

/* ---- damage.c: tables of any length and any content: those of so many hubs in use, changed, and random ones. */
void damaged_tables(uint64_t seed, unsigned long hubs, struct lines *lines);

/* ---- full.c: a hub with so many rows and connections: the stack of each call on it, and so many calls, behind so many ticks. */
void show_stack(void);
void one_call(const char *name, uint32_t rows, uint32_t connections, bool windows, bool tested, uint32_t ticks, uint32_t times);

#endif

/* The hub's calls over a pipe: a block of numbers in, the same with the answer and with what the call has left out. tests/pipe.py has the order of the numbers. The
   discipline of frames stays zero. */
#include <string.h>

#include "board.h"

enum {
    NUMBERS = 16384,
    ASKED = 1,
    HUB = ASKED + MOST_ASKED,
    HUB_NUMBERS = MOST_ASKED + 4,
    LENGTHS = HUB + HUB_NUMBERS,
    TOLD = LENGTHS + 3,
    TOLD_NUMBERS = 10,
    FIRST_TABLE = TOLD + TOLD_NUMBERS,
    MORE = 16
};

/* The calls by their numbers. */
static const enum kind kinds[] = {LINK, ADMIT, ADMIT_STAMPED, OFFER, OFFER_STAMPED, NOTICE, CLOSE, TICK};

/* Where a table begins in the block: each has room for 16 rows more. */
static size_t at_table(int table)
{
    const size_t width[TABLES] = {0, 25, 5, 5};
    size_t at = FIRST_TABLE;

    for (int i = CONNECTIONS; i < table; i++)
        at += whole[i] + MORE * width[i];
    return at;
}

/* What is asked stands in the order of the function's numbers. */
static struct call call_of(const uint32_t *block)
{
    struct call call;

    must(block[0] < sizeof kinds / sizeof kinds[0], "a call that there is");
    call.kind = kinds[block[0]];
    memcpy(call.number, block + ASKED, sizeof call.number);
    return call;
}

static void put_told(uint32_t *to, enum kind kind, const struct told *told)
{
    const struct mtredovim_departure *d = &told->departure;

    memset(to, 0, TOLD_NUMBERS * sizeof *to);
    to[0] = told->verdict;
    switch (kind) {
    case ADMIT:
    case ADMIT_STAMPED:
        to[1] = told->admission.number;
        to[2] = told->admission.level;
        to[3] = told->admission.units;
        break;
    case OFFER:
    case OFFER_STAMPED:
    case NOTICE: to[1] = told->number; break;
    case TICK: memcpy(to + 4, (uint32_t[]){d->gone, d->connection, d->length, d->tag, d->arrival, d->eligibility}, 6 * sizeof *to); break;
    default: break;
    }
}

static void answer(uint32_t *block)
{
    size_t length[TABLES] = {MTREDOVIM_LINE, block[LENGTHS], block[LENGTHS + 1], block[LENGTHS + 2]};
    struct lent lent = lend_tables(length);
    struct call call = call_of(block);
    struct told told;

    memcpy(lent.table[LINE], block + HUB, HUB_NUMBERS * sizeof *block);
    for (int i = CONNECTIONS; i < TABLES; i++)
        memcpy(lent.table[i], block + at_table(i), length[i] * sizeof *block);
    told = make_call(&lent, &call, false);
    put_told(block + TOLD, call.kind, &told);
    memcpy(block + HUB, lent.table[LINE], HUB_NUMBERS * sizeof *block);
    for (int i = CONNECTIONS; i < TABLES; i++)
        memcpy(block + at_table(i), lent.table[i], length[i] * sizeof *block);
    return_tables(&lent);
}

void serve_pipe(void)
{
    static uint32_t block[NUMBERS];

    while (fread(block, sizeof block, 1, stdin) == 1) {
        answer(block);
        must(fwrite(block, sizeof block, 1, stdout) == 1 && fflush(stdout) == 0, "a reply can't be written");
    }
}

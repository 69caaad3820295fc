/* The bytes that are lent lie against memory that can't be read: a byte read before or behind them ends the test. */
#define _DEFAULT_SOURCE
#include "asking.h"

#include <inttypes.h>
#include <stdbool.h>
#include <stdio.h>
#include <stdlib.h>
#include <string.h>
#include <sys/mman.h>

#include "mtredovim.h"
#include "reference.h"

enum { SPAN = 65536, SHOWN = 10 };

struct tally tally;

/* SPAN bytes between two spans that can't be read. */
static uint8_t *lk_span;
static uint8_t *rows_span;

/* Whether the next question's bytes end their spans. */
static bool at_the_end;

static uint8_t *fenced_span(void)
{
    uint8_t *all = mmap(NULL, 3 * (size_t)SPAN, PROT_NONE, MAP_PRIVATE | MAP_ANONYMOUS, -1, 0);

    if (all == MAP_FAILED || mprotect(all + SPAN, SPAN, PROT_READ | PROT_WRITE) != 0) {
        perror("no memory to lend from");
        exit(2);
    }
    return all + SPAN;
}

void prepare(void)
{
    lk_span = fenced_span();
    rows_span = fenced_span();
}

/* A copy that starts the span, or ends it. */
static uint8_t *lent(uint8_t *span, const uint8_t *bytes, size_t len)
{
    uint8_t *at = at_the_end ? span + SPAN - len : span;

    if (len > SPAN) {
        fprintf(stderr, "%zu bytes are too many to lend\n", len);
        exit(2);
    }
    if (len > 0)
        memcpy(at, bytes, len);
    return at;
}

void differs(const char *what)
{
    tally.differing++;
    if (tally.differing <= SHOWN)
        printf("DIFFERS: %s\n", what);
}

static void show(const char *name, const uint8_t *bytes, size_t len)
{
    printf("  %s", name);
    for (size_t i = 0; i < len; i++)
        printf(" %02X", bytes[i]);
    printf("\n");
}

uint64_t ask_next(uint32_t flag, uint32_t last, uint32_t gap, uint32_t now)
{
    uint64_t given = mtredovim_next_eligibility(flag, last, gap, now);
    uint64_t expected = reference_next(flag, last, gap, now);

    tally.asked++;
    if (given != expected) {
        differs("next eligibility");
        printf("  flag %" PRIu32 " last %" PRIu32 " gap %" PRIu32 " now %" PRIu32, flag, last, gap, now);
        printf(": %" PRIu64 ", expected %" PRIu64 "\n", given, expected);
    }
    return given;
}

/* How the answer for a link with windows came about. */
static void count_windows(const struct expected *answer)
{
    if (!answer->windows)
        return;
    if (answer->level == 0) {
        tally.hold++;
        tally.more += !answer->bounds_hold;
        return;
    }
    tally.less += answer->bounds_hold;
    if (answer->by_window) {
        tally.by_window[answer->level]++;
        return;
    }
    (answer->beta == 0 ? tally.at_first : tally.later)[answer->level]++;
    if (answer->beta < BETAS)
        tally.betas[answer->beta]++;
    if (answer->beta > tally.longest_beta)
        tally.longest_beta = answer->beta;
}

struct shortage ask_short(const uint8_t *lk, size_t lk_len, const uint8_t *rows, size_t rows_len)
{
    uint8_t *lk_lent = lent(lk_span, lk, lk_len);
    uint8_t *rows_lent = lent(rows_span, rows, rows_len);
    struct shortage given = {
        mtredovim_short_level(lk_lent, lk_len, rows_lent, rows_len),
        mtredovim_short_units(lk_lent, lk_len, rows_lent, rows_len),
    };
    struct expected expected = reference_short(lk, lk_len, rows, rows_len);

    at_the_end = !at_the_end;
    tally.asked += 2;
    tally.levels[given.level]++;
    count_windows(&expected);
    if (given.level != expected.level || given.units != expected.units) {
        differs("level or units");
        show("link", lk, lk_len);
        show("rows", rows, rows_len);
        printf("  %d by %" PRIu64 ", expected %d by %" PRIu64 "\n", given.level, given.units, expected.level, expected.units);
    }
    if ((lk_len > 0 && memcmp(lk_lent, lk, lk_len) != 0) || (rows_len > 0 && memcmp(rows_lent, rows, rows_len) != 0))
        differs("bytes that were lent were changed");
    return given;
}

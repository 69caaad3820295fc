#include "questions.h"

#include <stdbool.h>
#include <string.h>

/* Windows at their bounds are asked about up to here: the reference looks at every beta. */
enum { SHORT_BOUND = 200 };

static unsigned two_of(const uint8_t *at)
{
    return at[0] + 256u * at[1];
}

static void put_two(uint8_t *at, unsigned value)
{
    at[0] = (uint8_t)(value % 256);
    at[1] = (uint8_t)(value / 256 % 256);
}

void put_link(struct question *q, unsigned n, unsigned largest, unsigned silence, const unsigned *bounds)
{
    memset(q, 0, sizeof *q);
    q->lk[0] = 'L';
    q->lk[1] = 'K';
    q->lk[2] = (uint8_t)n;
    put_two(q->lk + 3, largest);
    q->lk[5] = (uint8_t)silence;
    for (unsigned m = 0; m < n && m < BOUNDS; m++)
        put_two(q->lk + 6 + 2 * m, bounds[m]);
    q->lk_len = 6 + 2 * (size_t)n;
}

void put_windows(struct question *q, unsigned setting, const unsigned *windows)
{
    unsigned n = q->lk[2];

    memmove(q->lk + 7, q->lk + 6, 2 * (size_t)n);
    q->lk[1] = 'W';
    q->lk[6] = (uint8_t)setting;
    for (unsigned m = 0; m < n; m++)
        put_two(q->lk + 7 + 2 * (n + m), windows[m]);
    q->lk_len = 7 + 4 * (size_t)n;
}

void put_row(struct question *q, unsigned level, unsigned gap, unsigned size)
{
    put_average_row(q, level, gap, size, 0, 0);
}

void put_average_row(struct question *q, unsigned level, unsigned gap, unsigned size, unsigned window, unsigned average)
{
    uint8_t *row = q->rows + q->rows_len;

    row[0] = (uint8_t)level;
    put_two(row + 1, gap);
    put_two(row + 3, size);
    put_two(row + 5, window);
    put_two(row + 7, average);
    q->rows_len += ROW;
}

static struct shortage ask_once(const struct question *q)
{
    return ask_short(q->lk, q->lk_len, q->rows, q->rows_len);
}

static bool whole_lk(const struct question *q)
{
    unsigned n = q->lk[2];

    return q->lk[0] == 'L' && q->lk[1] == 'K' && n >= 1 && n <= MOST_LEVELS && q->lk_len == 6 + 2 * (size_t)n;
}

static void ask_alike(const struct question *q, unsigned setting, const unsigned *windows, struct shortage answer)
{
    struct question other = *q;

    put_windows(&other, setting, windows);
    struct shortage given = ask_once(&other);
    if (given.level != answer.level || given.units != answer.units)
        differs("an LW that means the same");
}

struct shortage ask(const struct question *q)
{
    static const unsigned none[MOST_LEVELS];
    unsigned bounds[MOST_LEVELS], longest = 0;
    struct shortage given = ask_once(q);

    if (!whole_lk(q))
        return given;
    for (unsigned m = 0; m < q->lk[2]; m++) {
        bounds[m] = two_of(q->lk + 6 + 2 * m);
        longest = bounds[m] > longest ? bounds[m] : longest;
    }
    ask_alike(q, 0, none, given);
    ask_alike(q, 1, none, given);
    if (longest <= SHORT_BOUND)
        ask_alike(q, 0, bounds, given);
    return given;
}

void expect_over(const struct question *q, unsigned level, uint64_t units, const char *what)
{
    struct shortage given = ask(q);

    if (given.level != level || given.units != units)
        differs(what);
}

void expect(const struct question *q, unsigned answer, const char *what)
{
    expect_over(q, answer, 0, what);
}

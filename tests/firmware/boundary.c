/* Every limit at its last good and first bad value, every length, every mark, rows in every order, sums about their bounds, about 2^32 and 2^33. Of
   windows: windows.c. */
#include <stdbool.h>
#include <string.h>

#include "questions.h"

enum { REFUSED = 255, LAST_BOUND = 32768, MOST_LARGEST = 2048, MOST_SILENCE = 64, MOST_GAP = 65535 };

/* n bounds that end at `last`, one apart. */
static void bounds_up_to(unsigned last, unsigned n, unsigned *bounds)
{
    for (unsigned m = 0; m < n; m++)
        bounds[m] = last - (n - 1 - m);
}

/* A link that nothing breaks: S 4, no silence, bounds 16 apart from 16 on. */
static void plain_link(struct question *q, unsigned n)
{
    unsigned bounds[BOUNDS];

    for (unsigned m = 0; m < n; m++)
        bounds[m] = 16 * (m + 1);
    put_link(q, n, 4, 0, bounds);
}

static void next_numbers(void)
{
    static const uint32_t edges[] = {0,          1,          2,          65534,      65535,      65536,      0x7FFFFFFF,
                                     0x80000000, 3999999999, 4000000000, 4000000001, 0xFFFFFFFE, 0xFFFFFFFF};
    enum { EDGES = sizeof edges / sizeof edges[0] };

    for (unsigned f = 0; f < EDGES; f++)
        for (unsigned l = 0; l < EDGES; l++)
            for (unsigned g = 0; g < EDGES; g++) {
                for (unsigned n = 0; n < EDGES; n++)
                    ask_next(edges[f], edges[l], edges[g], edges[n]);
                /* the present tick one before, at and one behind the spaced one */
                for (uint32_t away = 0; away < 3; away++)
                    ask_next(edges[f], edges[l], edges[g], edges[l] + edges[g] + away - 1);
            }
    if (ask_next(1, 0xFFFFFFFF, 0xFFFFFFFF, 0) != 8589934590u)
        differs("the latest eligibility");
}

/* All marks before a good rest. */
static void marks(void)
{
    struct question q;

    plain_link(&q, 1);
    for (unsigned mark = 0; mark < 65536; mark++) {
        q.lk[0] = (uint8_t)(mark % 256);
        q.lk[1] = (uint8_t)(mark / 256);
        expect(&q, mark == ('L' | 'K' << 8) ? 0 : REFUSED, "mark");
    }
}

/* Every n with every length about it. */
static void link_lengths(void)
{
    struct question q;

    for (unsigned n = 0; n < 256; n++)
        for (size_t len = 0; len <= sizeof q.lk; len++) {
            plain_link(&q, BOUNDS);
            q.lk[2] = (uint8_t)n;
            q.lk_len = len;
            expect(&q, n >= 1 && n <= MOST_LEVELS && len == 6 + 2 * (size_t)n ? 0 : REFUSED, "length of LK");
        }
}

/* Every number of bytes of rows: none, whole rows up to 200, and all others. */
static void row_lengths(void)
{
    struct question q;

    plain_link(&q, 1);
    while (q.rows_len + ROW <= sizeof q.rows)
        put_row(&q, 1, MOST_GAP, 1);
    for (size_t len = 0; len <= sizeof q.rows; len++) {
        q.rows_len = len;
        ask(&q);
        if (len % ROW != 0 || len > ROW * MOST_ROWS)
            expect(&q, REFUSED, "length of rows");
    }
    q.rows_len = 0;
    expect(&q, 0, "no rows");
    q.rows_len = ROW * 12;
    expect(&q, 0, "12 rows of 1 unit and S 4 with bound 16");
    q.rows_len = ROW * MOST_ROWS;
    expect_over(&q, 1, 188, "200 rows of 1 unit and S 4");
    q.rows_len = ROW * (MOST_ROWS + 1);
    expect(&q, REFUSED, "201 rows");
}

/* S, the first bound against it, each bound against the one before, the last bound. */
static void link_limits(void)
{
    static const unsigned largest[] = {0, 1, 2, 2047, 2048, 2049, 4096, 65535};
    struct question q;
    unsigned bounds[MOST_LEVELS];

    for (unsigned n = 1; n <= MOST_LEVELS; n++) {
        for (unsigned s = 0; s < sizeof largest / sizeof largest[0]; s++)
            for (unsigned away = 0; away < 3; away++) {
                bounds_up_to(largest[s] + away + n - 2, n, bounds);
                put_link(&q, n, largest[s], 0, bounds);
                ask(&q);
            }
        for (unsigned last = LAST_BOUND - 1; last <= LAST_BOUND + 1; last++) {
            bounds_up_to(last, n, bounds);
            put_link(&q, n, 4, 0, bounds);
            expect(&q, last <= LAST_BOUND ? 0 : REFUSED, "last bound");
        }
        for (unsigned m = 1; m < n; m++)
            for (unsigned away = 0; away < 3; away++) {
                bounds_up_to(1000, n, bounds);
                for (unsigned k = m; k < n; k++)
                    bounds[k] += away;
                bounds[m - 1] += 1;
                put_link(&q, n, 4, 0, bounds);
                expect(&q, away >= 1 ? 0 : REFUSED, "bounds that rise");
            }
    }
}

/* Every silence, with the first bound one below S plus the silence, at it and one above it. */
static void silences(void)
{
    static const unsigned largest[] = {1, 4, 2047, 2048};
    struct question q;
    unsigned bounds[MOST_LEVELS];

    for (unsigned n = 1; n <= MOST_LEVELS; n++)
        for (unsigned s = 0; s < sizeof largest / sizeof largest[0]; s++)
            for (unsigned silence = 0; silence < 256; silence++)
                for (unsigned away = 0; away < 3; away++) {
                    bounds_up_to(largest[s] + silence + away + n - 2, n, bounds);
                    put_link(&q, n, largest[s], silence, bounds);
                    expect(&q, silence <= MOST_SILENCE && away >= 1 ? 0 : REFUSED, "a silence");
                }
}

/* Each number of a row at its limits, in each of seven places; a bad row wins over a level that fails. */
static void row_limits(void)
{
    static const unsigned edges[] = {0, 1, 2, 3, 4, 5, 7, 8, 9, 255, 256, 1023, 1024, 32768, 65534, 65535};
    enum { EDGES = sizeof edges / sizeof edges[0], PLACES = 7 };
    struct question q;

    for (unsigned n = 1; n <= MOST_LEVELS; n++)
        for (unsigned place = 0; place < PLACES; place++)
            for (unsigned e = 0; e < 3 * EDGES; e++) {
                unsigned edge = edges[e % EDGES];

                plain_link(&q, n);
                for (unsigned i = 0; i < PLACES; i++) {
                    unsigned of = i == place ? e / EDGES : 3;

                    put_row(&q, of == 0 ? edge : 1, of == 1 ? edge : 8, of == 2 ? edge : 4);
                }
                ask(&q);
                if (edge == 0)
                    expect(&q, REFUSED, "a row with a 0, where level 1 fails");
            }
}

/* Windows and average gaps about their limits beside a gap of 7: an average gap of at least 7 that goes into the window 1 to 16 times without a rest is
   allowed. With or without it there are at most 3 packets of 4 units in the bound of 16, and S 4. */
static void average_limits(void)
{
    static const unsigned edges[] = {0, 1, 6, 7, 8, 14, 16, 17, 255, 256, 4095, 4369, 32767, 32768, 65535};
    enum { EDGES = sizeof edges / sizeof edges[0], GAP = 7 };
    struct question q;

    for (unsigned a = 0; a < EDGES; a++)
        for (unsigned n = 0; n <= 18; n++)
            for (unsigned away = 0; away < 3; away++) {
                unsigned average = edges[a], window = n * average + away - 1;
                bool none = average == 0 && window == 0;
                bool good = average >= GAP && window % average == 0 && window / average >= 1 && window / average <= 16;

                if (n * average + away < 1 || window > MOST_GAP)
                    continue;
                plain_link(&q, 1);
                put_average_row(&q, 1, GAP, 4, window, average);
                expect(&q, none || good ? 0 : REFUSED, "a window and an average gap");
            }
}

/* n packets of one unit to each window. A bound of so many windows and a rest holds n for each window and, for the rest, one for each gap begun, at
   most n; S fills what is left of the bound but for a unit too little, none, or one too much. */
static void average_sums(void)
{
    struct question q;
    unsigned bound[1];

    for (unsigned n = 1; n <= 16; n++)
        for (unsigned gap = 1; gap <= 5; gap++)
            for (unsigned average = gap + 1; average <= gap + 3; average++)
                for (unsigned windows = 0; windows <= 3; windows++)
                    for (unsigned rest = 0; rest < n * average; rest++) {
                        unsigned begun = (rest + gap - 1) / gap;
                        unsigned packets = windows * n + (begun < n ? begun : n);

                        bound[0] = windows * n * average + rest;
                        if (bound[0] <= packets)
                            continue;
                        for (unsigned away = 0; away < 3; away++) {
                            unsigned largest = bound[0] - packets + away - 1;

                            if (largest < 1 || largest > bound[0])
                                continue;
                            put_link(&q, 1, largest, 0, bound);
                            put_average_row(&q, 1, gap, 1, n * average, average);
                            expect_over(&q, away < 2 ? 0 : 1, away < 2 ? 0 : 1, "a sum with an average");
                        }
                    }
}

/* At each level of each link: a sum one below its bound, at it and one above it. */
static void sums_about_the_bound(void)
{
    struct question q;

    for (unsigned n = 1; n <= MOST_LEVELS; n++)
        for (unsigned m = 1; m <= n; m++)
            for (unsigned away = 0; away < 3; away++) {
                unsigned left = 16 * m - 4 - 1 + away;

                plain_link(&q, n);
                for (; left > 4; left -= 4)
                    put_row(&q, m, MOST_GAP, 4);
                put_row(&q, m, MOST_GAP, left);
                expect_over(&q, away < 2 ? 0 : m, away < 2 ? 0 : 1, "a sum about its bound");
            }
}

/* The same with a silence: S and three rows of size 4, and one of size 1, 2 and 3, each with the silence behind it, where 2 just fits. */
static void sums_with_silence(void)
{
    struct question q;
    unsigned bounds[MOST_LEVELS];

    for (unsigned n = 1; n <= MOST_LEVELS; n++)
        for (unsigned m = 1; m <= n; m++)
            for (unsigned silence = 0; silence <= MOST_SILENCE; silence++)
                for (unsigned size = 1; size <= 3; size++) {
                    bounds_up_to(4 * (4 + silence) + 2 + silence + (n - m), n, bounds);
                    put_link(&q, n, 4, silence, bounds);
                    for (unsigned i = 0; i < 3; i++)
                        put_row(&q, m, MOST_GAP, 4);
                    put_row(&q, m, MOST_GAP, size);
                    expect_over(&q, size < 3 ? 0 : m, size < 3 ? 0 : 1, "a sum with its silences");
                }
}

/* Rounding up: a gap one below, at and one above each divisor of the bound. */
static void gaps_about_divisors(void)
{
    static const unsigned bound[] = {LAST_BOUND}, rows[] = {1, 22, 64, MOST_ROWS};
    struct question q;

    for (unsigned packets = 1; packets <= 300; packets++)
        for (unsigned away = 0; away < 3; away++)
            for (unsigned size = 1; size <= 3; size++) {
                unsigned gap = LAST_BOUND / packets + away - 1;

                for (unsigned r = 0; r < sizeof rows / sizeof rows[0]; r++) {
                    put_link(&q, 1, LAST_BOUND / 64, packets % 4, bound);
                    for (unsigned i = 0; i < rows[r]; i++)
                        put_row(&q, 1, gap, size * 32);
                    ask(&q);
                }
            }
}

/* Rows that each add 2^26, S and the silence being 2,048 together: the sum of 64 is 2^32, of 128 2^33, of 192 three times 2^32, and S comes on top.
   A row one smaller takes 2^15 off; nothing between the two can be reached. In 32 bits 2^32 + 2,048 would pass for 2,048. The units of 64 rows, the
   bound taken off, stay 30,720 below 2^32; with the largest S and the longest silence they pass it. */
static void sums_past_32_bits(unsigned largest, unsigned silence)
{
    static const unsigned rows[] = {63, 64, 65, 127, 128, 192, MOST_ROWS - 1, MOST_ROWS};
    const uint64_t taken_off = LAST_BOUND, cost = largest + silence, added = LAST_BOUND * cost;
    struct question q;
    unsigned bounds[MOST_LEVELS];

    for (unsigned n = 1; n <= MOST_LEVELS; n++)
        for (unsigned r = 0; r < sizeof rows / sizeof rows[0]; r++)
            for (unsigned smaller = 0; smaller <= rows[r]; smaller++) {
                bounds_up_to(LAST_BOUND, n, bounds);
                put_link(&q, n, largest, silence, bounds);
                for (unsigned i = 0; i < rows[r]; i++)
                    put_row(&q, n, 1, i < smaller ? largest - 1 : largest);
                expect_over(&q, n, rows[r] * added - smaller * taken_off + cost - LAST_BOUND, "a sum past 32 bits");
            }
}

/* The most there is: 200 rows, each of 32,768 packets of 2,112 ticks, and 2,112 for S; and a row more. */
static void largest_sum(void)
{
    static const unsigned bound[] = {LAST_BOUND};
    struct question q;

    put_link(&q, 1, MOST_LARGEST, MOST_SILENCE, bound);
    for (unsigned i = 0; i < MOST_ROWS; i++)
        put_row(&q, 1, 1, MOST_LARGEST);
    expect_over(&q, 1, 13841205312u - LAST_BOUND, "the largest sum");
    put_row(&q, 1, 1, MOST_LARGEST);
    expect(&q, REFUSED, "a row more than the most");
}

/* Swaps two rows. */
static void swap_rows(struct question *q, unsigned i, unsigned j)
{
    uint8_t row[ROW];

    memcpy(row, q->rows + ROW * i, ROW);
    memmove(q->rows + ROW * i, q->rows + ROW * j, ROW);
    memcpy(q->rows + ROW * j, row, ROW);
}

/* All orders of the rows from `from` on, by exchanges; each must be answered alike. */
static void every_order(struct question *q, unsigned from, unsigned count, struct shortage answer)
{
    if (from == count) {
        expect_over(q, answer.level, answer.units, "rows in another order");
        return;
    }
    for (unsigned i = from; i < count; i++) {
        swap_rows(q, from, i);
        every_order(q, from + 1, count, answer);
        swap_rows(q, from, i);
    }
}

static void orders(void)
{
    static const unsigned windows[] = {24, 40, 56, 72}, longer[] = {24, 40, 336, 340}, two[] = {24, 60};
    struct question q, with;

    /* 12 of 16 at level 1, 24 of 32 at level 2, 51 of 48 at level 3; level 4 fails too */
    plain_link(&q, 4);
    put_row(&q, 1, 16, 4);
    put_row(&q, 1, 4, 1);
    put_row(&q, 2, 32, 4);
    put_row(&q, 3, 7, 2);
    put_row(&q, 4, 3, 3);
    put_row(&q, 3, 48, 1);
    every_order(&q, 0, 6, (struct shortage){3, 3});
    /* 18 within 24 at level 1, 34 within 40 at level 2, 60 within 56 at level 3 */
    with = q;
    put_windows(&with, 0, windows);
    every_order(&with, 0, 6, (struct shortage){3, 4});
    /* 319 within 336 at level 3, 669 within 340 at level 4 */
    with = q;
    put_windows(&with, 0, longer);
    every_order(&with, 0, 6, (struct shortage){4, 329});
    /* 20 of 16 at level 1 */
    put_row(&q, 1, 4, 2);
    every_order(&q, 0, 7, (struct shortage){1, 4});
    /* a level too many in one of them */
    q.rows[ROW] = 5;
    every_order(&q, 0, 7, (struct shortage){REFUSED, 0});
    /* 32 of 32 at level 2; with windows 32 of 32 at beta 0, and 37 of 33 at beta 1, where both of level 1 send once more */
    plain_link(&q, 2);
    put_row(&q, 1, 16, 4);
    put_row(&q, 1, 4, 1);
    put_row(&q, 2, MOST_GAP, 4);
    put_row(&q, 2, MOST_GAP, 3);
    put_row(&q, 2, 100, 4);
    put_row(&q, 2, MOST_GAP, 1);
    every_order(&q, 0, 6, (struct shortage){0, 0});
    put_windows(&q, 0, two);
    every_order(&q, 0, 6, (struct shortage){2, 4});
}

void boundary_questions(void)
{
    next_numbers();
    marks();
    link_lengths();
    row_lengths();
    link_limits();
    silences();
    row_limits();
    average_limits();
    average_sums();
    sums_about_the_bound();
    sums_with_silence();
    gaps_about_divisors();
    sums_past_32_bits(MOST_LARGEST, 0);
    sums_past_32_bits(MOST_LARGEST - MOST_SILENCE, MOST_SILENCE);
    sums_past_32_bits(MOST_LARGEST, MOST_SILENCE);
    largest_sum();
    orders();
}

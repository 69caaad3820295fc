/* Links with windows: every limit at its last good and first bad value, every length, every mark, each condition at its edge. */
#include <stdbool.h>

#include "questions.h"

enum { REFUSED = 255, MOST_LARGEST = 2048, MOST_SILENCE = 64, LONGEST_WINDOW = 32768, FAR = 65535 };

/* A link that nothing breaks: S 4, no silence, bounds 16 apart from 16 on, each window 8 above its bound. */
static void plain_windows(unsigned n, unsigned *bounds, unsigned *windows)
{
    for (unsigned m = 0; m < n; m++) {
        bounds[m] = 16 * (m + 1);
        windows[m] = bounds[m] + 8;
    }
}

static void plain_link(struct question *q, unsigned n)
{
    unsigned bounds[BOUNDS], windows[BOUNDS];

    plain_windows(n, bounds, windows);
    put_link(q, n, 4, 0, bounds);
    put_windows(q, 0, windows);
}

/* All marks before the rest of an LW, and of an LE, which has a setting and no windows and is not taken. */
static void marks(void)
{
    struct question q;

    plain_link(&q, 1);
    for (unsigned mark = 0; mark < 65536; mark++) {
        q.lk[0] = (uint8_t)(mark % 256);
        q.lk[1] = (uint8_t)(mark / 256);
        q.lk_len = 11;
        expect(&q, mark == ('L' | 'W' << 8) ? 0 : REFUSED, "mark of an LW");
        q.lk_len = 9;
        expect(&q, REFUSED, "an LE, or another mark before its rest");
    }
}

/* Every n with every length about it. */
static void link_lengths(void)
{
    struct question q;

    for (unsigned n = 0; n < 256; n++)
        for (size_t len = 0; len <= sizeof q.lk; len++) {
            plain_link(&q, n < BOUNDS ? n : BOUNDS);
            q.lk[2] = (uint8_t)n;
            q.lk_len = len;
            expect(&q, n >= 1 && n <= MOST_LEVELS && len == 7 + 4 * (size_t)n ? 0 : REFUSED, "length of LW");
        }
}

static void settings(void)
{
    static const unsigned none[MOST_LEVELS];
    struct question q;
    unsigned bounds[MOST_LEVELS], windows[MOST_LEVELS];

    for (unsigned n = 1; n <= MOST_LEVELS; n++)
        for (unsigned setting = 0; setting < 256; setting++) {
            plain_windows(n, bounds, windows);
            put_link(&q, n, 4, 0, bounds);
            put_windows(&q, setting, windows);
            expect(&q, setting <= 1 ? 0 : REFUSED, "a setting");
            put_link(&q, n, 4, 0, bounds);
            put_windows(&q, setting, none);
            expect(&q, setting <= 1 ? 0 : REFUSED, "a setting without windows");
        }
}

/* The link alone, and with a row that makes level 1 fail, which a broken limit wins over. */
static void expect_link(unsigned n, const unsigned *bounds, const unsigned *windows, bool good, const char *what)
{
    struct question q;

    put_link(&q, n, 4, 0, bounds);
    put_windows(&q, 0, windows);
    expect(&q, good ? 0 : REFUSED, what);
    put_row(&q, 1, 1, 4);
    if (ask(&q).level != (good ? 1 : REFUSED))
        differs(what);
}

/* Each level's window about its bound and about the longest, where the others have one, and where they have none. */
static void limits(void)
{
    unsigned bounds[MOST_LEVELS], windows[MOST_LEVELS];

    for (unsigned n = 1; n <= MOST_LEVELS; n++)
        for (unsigned m = 0; m < n; m++) {
            const unsigned d = 16 * (m + 1);
            const unsigned edges[] = {0, 1, d - 1, d, d + 1, LONGEST_WINDOW - 1, LONGEST_WINDOW, LONGEST_WINDOW + 1, FAR};

            for (unsigned e = 0; e < sizeof edges / sizeof edges[0]; e++) {
                bool within = edges[e] >= d && edges[e] <= LONGEST_WINDOW;

                plain_windows(n, bounds, windows);
                windows[m] = edges[e];
                expect_link(n, bounds, windows, within || (n == 1 && edges[e] == 0), "a window");
                for (unsigned k = 0; k < n; k++)
                    windows[k] = k == m ? edges[e] : 0;
                expect_link(n, bounds, windows, edges[e] == 0 || (n == 1 && within), "a window alone");
            }
        }
}

/* All at their bounds, all the longest, all one too long; the longest first, and none like another. */
static void all_windows(void)
{
    unsigned bounds[MOST_LEVELS], windows[MOST_LEVELS];

    for (unsigned n = 1; n <= MOST_LEVELS; n++) {
        plain_windows(n, bounds, windows);
        expect_link(n, bounds, bounds, true, "windows at their bounds");
        for (unsigned m = 0; m < n; m++)
            windows[m] = LONGEST_WINDOW;
        expect_link(n, bounds, windows, true, "the longest windows");
        for (unsigned m = 0; m < n; m++)
            windows[m] = LONGEST_WINDOW + 1;
        expect_link(n, bounds, windows, false, "windows that are too long");
        for (unsigned m = 0; m < n; m++)
            windows[m] = 1000 - 50 * m;
        expect_link(n, bounds, windows, true, "windows that fall");
    }
}

/* A link of eight levels, of which one is looked at: those before it have bounds from `first` on, those behind it from `last` on, their windows so much
   longer. */
static void eight_levels(unsigned m, unsigned first, unsigned last, unsigned longer, unsigned *bounds, unsigned *windows)
{
    for (unsigned k = 1; k <= MOST_LEVELS; k++) {
        bounds[k - 1] = k < m ? first + k - 1 : last + k;
        windows[k - 1] = bounds[k - 1] + longer;
    }
}

/* S 3 and a line of gap 4 and size 3: 12 units within 9 to 12 ticks, 15 within 13 to 16; of beta no sum passes its limit. A line of one packet is a
   unit more. */
static void within_the_window(void)
{
    static const unsigned over[] = {1, 0, 2, 1, 0, 0}; /* within 11 to 16 */
    struct question q;
    unsigned bounds[MOST_LEVELS], windows[MOST_LEVELS];

    for (unsigned m = 1; m <= MOST_LEVELS; m++)
        for (unsigned w = 11; w <= 16; w++)
            for (unsigned d = m + 2 > 7 ? m + 2 : 7; d <= 11; d++) {
                unsigned units = over[w - 11], more = w == 16 ? 0 : units + 1;

                eight_levels(m, 3, 100, 5, bounds, windows);
                bounds[m - 1] = d;
                windows[m - 1] = w;
                put_link(&q, MOST_LEVELS, 3, 0, bounds);
                put_windows(&q, 0, windows);
                put_row(&q, m, 4, 3);
                expect_over(&q, units == 0 ? 0 : m, units, "a sum about its window");
                put_row(&q, m, FAR, 1);
                expect_over(&q, more == 0 ? 0 : m, more, "a unit more within the window");
            }
}

/* A line of k + 1 packets, g ticks apart, of g + 1 units, and then a long pause; S is g + 1. At beta = jg the sum is (j + 2)(g + 1): with each packet it
   comes a unit nearer to d + jg. A bound of 2g + 2 + k is reached by the last packet, a shorter one is passed by it, and one shorter still by the packet
   before, which is the first; where there is none, by 2. Within the window it is all of it, (k + 2)(g + 1): one tick less is one too few. */
static void at_a_beta(unsigned g, unsigned k)
{
    const unsigned n = k + 1, all = (k + 2) * (g + 1), average = FAR / n;
    struct question q;
    unsigned bounds[MOST_LEVELS], windows[MOST_LEVELS];

    for (unsigned m = 1; m <= MOST_LEVELS; m++)
        for (unsigned less = 0; less < 3; less++)
            for (unsigned longer = 0; longer < 3; longer++) {
                unsigned d = 2 * g + 2 + k - less, w = all - 1 + longer;
                unsigned units = longer == 0 ? 1 : less == 2 && k == 0 ? 2 : less != 0;

                if (d < g + m || w < d)
                    continue;
                eight_levels(m, g + 1, all + 100, 1, bounds, windows);
                bounds[m - 1] = d;
                windows[m - 1] = w;
                put_link(&q, MOST_LEVELS, g + 1, 0, bounds);
                put_windows(&q, 1, windows);
                put_average_row(&q, m, g, g + 1, n * average, average);
                expect_over(&q, units == 0 ? 0 : m, units, "a sum about its limit at a beta");
            }
}

static void betas(void)
{
    static const unsigned gaps[] = {1, 2, 3, 10, 100, 1900};

    for (unsigned i = 0; i < sizeof gaps / sizeof gaps[0]; i++)
        for (unsigned k = 0; k < 16; k++)
            at_a_beta(gaps[i], k);
}

/* S 20, three lines of level m that send 60 units once, and a more urgent one of size s, together d at beta = 0. Its gap is d + j: from beta = j + 1 on it
   has sent twice, if the window is longer than its gap, and the sum is d + s of d + j + 1. Within the window it is d + s as well. */
static void urgent_ones(void)
{
    static const unsigned longer[] = {0, 1, 2, 3, 10};
    struct question q;
    unsigned bounds[MOST_LEVELS], windows[MOST_LEVELS];

    for (unsigned m = 2; m <= MOST_LEVELS; m++)
        for (unsigned urgent = 1; urgent < m; urgent++)
            for (unsigned j = 0; j < 18; j++)
                for (unsigned e = 0; e < 3; e++)
                    for (unsigned i = 0; i < sizeof longer / sizeof longer[0]; i++) {
                        const unsigned s = j + 1 + e, d = 80 + s, a = longer[i];
                        unsigned units = a == 0 ? 0 : e + 1 > a ? e + 1 - a : e;

                        eight_levels(m, 40, 300, 0, bounds, windows);
                        bounds[m - 1] = d;
                        windows[m - 1] = d + j + a;
                        put_link(&q, MOST_LEVELS, 20, 0, bounds);
                        put_windows(&q, 0, windows);
                        for (unsigned row = 0; row < 3; row++)
                            put_row(&q, m, FAR, 20);
                        put_row(&q, urgent, d + j, s);
                        expect_over(&q, units == 0 ? 0 : m, units, "a sum with an urgent line that sends again");
                    }
}

/* Which level and which condition comes first. S 2, bounds 10 and 20, windows 40; four lines of level 1 send 8 units once. */
static void the_first(void)
{
    static const unsigned bounds[] = {10, 20}, windows[] = {40, 40};
    struct question q;

    put_link(&q, 2, 2, 0, bounds);
    put_windows(&q, 0, windows);
    for (unsigned i = 0; i < 4; i++)
        put_row(&q, 1, FAR, 2);
    expect(&q, 0, "10 of 10 at beta 0");
    put_row(&q, 2, 1, 1);
    expect_over(&q, 2, 10, "2 + 8 + 40 within 40, at level 2");
    put_row(&q, 1, FAR, 1);
    expect_over(&q, 1, 1, "11 of 10 at beta 0, at level 1; level 2 is over by 11 within its window");
    put_row(&q, 1, 1, 1);
    expect_over(&q, 1, 11, "2 + 9 + 40 within 40, at level 1; 12 of 10 at beta 0");
}

/* A set that document 01's test refuses and windows let in, and one that it takes and windows refuse. */
static void other_than_bounds(void)
{
    static const unsigned four[] = {4}, five[] = {5}, bounds[] = {10, 20}, windows[] = {40, 40};
    struct question q;

    put_link(&q, 1, 1, 0, four);
    put_row(&q, 1, 3, 1);
    put_row(&q, 1, 5, 1);
    put_row(&q, 1, 5, 1);
    expect_over(&q, 1, 1, "1 + 2 + 1 + 1 of 4");
    put_windows(&q, 0, five);
    expect(&q, 0, "5 within 5, 4 of 4 at beta 0, 5 of 7 at beta 3");

    put_link(&q, 2, 4, 0, bounds);
    put_row(&q, 1, 20, 4);
    for (unsigned i = 0; i < 3; i++)
        put_row(&q, 2, FAR, 4);
    expect(&q, 0, "8 of 10, 20 of 20");
    put_windows(&q, 0, windows);
    expect_over(&q, 2, 3, "4 + 12 + 8 of 21 at beta 1");
}

/* Rows that each add 32,768 times S and its silence, within the window of level n. */
static void past_32_bits(unsigned largest, unsigned silence)
{
    static const unsigned rows[] = {63, 64, 65, 128, 192, MOST_ROWS};
    const uint64_t cost = largest + silence;
    struct question q;
    unsigned bounds[MOST_LEVELS], windows[MOST_LEVELS];

    for (unsigned n = 1; n <= MOST_LEVELS; n++)
        for (unsigned r = 0; r < sizeof rows / sizeof rows[0]; r++) {
            eight_levels(n, largest + silence, largest + silence, 0, bounds, windows);
            windows[n - 1] = LONGEST_WINDOW;
            put_link(&q, n, largest, silence, bounds);
            put_windows(&q, 0, windows);
            for (unsigned i = 0; i < rows[r]; i++)
                put_row(&q, n, 1, largest);
            expect_over(&q, n, rows[r] * LONGEST_WINDOW * cost + cost - LONGEST_WINDOW, "a sum past 32 bits within a window");
        }
    if (largest == MOST_LARGEST)
        expect_over(&q, MOST_LEVELS, 13841205312u - LONGEST_WINDOW, "the largest sum");
}

/* 200 lines of one packet of a unit, and S 1: 201 of 201 at beta 0, in the longest window. */
static void most_rows(void)
{
    static const unsigned window[] = {LONGEST_WINDOW};
    struct question q;
    unsigned bound[1];

    for (bound[0] = 199; bound[0] <= 202; bound[0]++) {
        unsigned units = bound[0] < 201 ? 201 - bound[0] : 0;

        put_link(&q, 1, 1, 0, bound);
        put_windows(&q, 0, window);
        for (unsigned i = 0; i < MOST_ROWS; i++)
            put_row(&q, 1, FAR, 1);
        expect_over(&q, units != 0, units, "200 rows and the longest window");
        put_row(&q, 1, FAR, 1);
        expect(&q, REFUSED, "201 rows and the longest window");
    }
}

void window_questions(void)
{
    marks();
    link_lengths();
    settings();
    limits();
    all_windows();
    within_the_window();
    betas();
    urgent_ones();
    the_first();
    other_than_bounds();
    past_32_bits(MOST_LARGEST - MOST_SILENCE, MOST_SILENCE);
    past_32_bits(MOST_LARGEST, MOST_SILENCE);
    most_rows();
}

/* Document 01, "Eligibility", "Link, connections, places", "The level test" and "Two questions from C firmware"; docs/RULES.md, R-2,
   document 02, R-7 and R-12. */
#include "reference.h"

enum {
    MOST_LEVELS = 8,
    MOST_LARGEST = 2048,
    MOST_SILENCE = 64,
    LAST_BOUND = 32768,
    LONGEST_WINDOW = 32768,
    MOST_SETTING = 1,
    MOST_ROWS = 200,
    MOST_PER_WINDOW = 16,
    ROW = 9,
    REFUSED = 255
};

struct link {
    unsigned levels;
    unsigned largest;
    unsigned silence;
    unsigned setting;                 /* of an LK 0 */
    unsigned bound[MOST_LEVELS + 1];  /* by level, from 1 */
    unsigned window[MOST_LEVELS + 1]; /* the same; of an LK all 0 */
};

struct row {
    unsigned level;
    unsigned gap;
    unsigned size;
    unsigned window;
    unsigned average;
};

struct rows {
    size_t count;
    struct row row[MOST_ROWS];
};

uint64_t reference_next(uint32_t flag, uint32_t last, uint32_t gap, uint32_t now)
{
    uint64_t spaced = (uint64_t)last + gap;

    return flag != 0 && spaced > now ? spaced : now;
}

static unsigned two_bytes(const uint8_t *at)
{
    return at[0] | (unsigned)at[1] << 8;
}

/* One whole record and no byte more: an LK with its mark, n from 1 to 8, S, the silence and n bounds, or an LW, which has the setting before the bounds
   and n windows behind them. */
static bool read_link(const uint8_t *lk, size_t lk_len, struct link *link)
{
    if (lk_len < 6 || lk[0] != 'L' || (lk[1] != 'K' && lk[1] != 'W'))
        return false;
    bool lw = lk[1] == 'W';
    const size_t head = lw ? 7 : 6, n = lk[2];

    if (n < 1 || n > MOST_LEVELS || lk_len != head + (lw ? 4 : 2) * n)
        return false;
    *link = (struct link){.levels = (unsigned)n, .largest = two_bytes(lk + 3), .silence = lk[5], .setting = lw ? lk[6] : 0};
    for (size_t m = 1; m <= n; m++) {
        link->bound[m] = two_bytes(lk + head + 2 * (m - 1));
        if (lw)
            link->window[m] = two_bytes(lk + head + 2 * n + 2 * (m - 1));
    }
    return true;
}

static bool has_windows(const struct link *link)
{
    for (unsigned m = 1; m <= link->levels; m++)
        if (link->window[m] != 0)
            return true;
    return false;
}

/* All are 0, which is none; else each level has one, of at least its bound and at most 32,768. */
static bool windows_allowed(const struct link *link)
{
    for (unsigned m = 1; m <= link->levels; m++)
        if (link->window[m] < link->bound[m] || link->window[m] > LONGEST_WINDOW)
            return !has_windows(link);
    return true;
}

/* S from 1 to 2,048; a silence up to 64; a setting of 0 or 1; the bounds rise strictly, the first is at least S plus the silence, the last at most
   32,768; windows that are allowed. */
static bool link_allowed(const struct link *link)
{
    if (link->largest < 1 || link->largest > MOST_LARGEST || link->silence > MOST_SILENCE || link->setting > MOST_SETTING)
        return false;
    if (link->bound[1] < link->largest + link->silence)
        return false;
    for (unsigned m = 2; m <= link->levels; m++)
        if (link->bound[m] <= link->bound[m - 1])
            return false;
    return link->bound[link->levels] <= LAST_BOUND && windows_allowed(link);
}

static struct row read_row(const uint8_t *bytes)
{
    return (struct row){bytes[0], two_bytes(bytes + 1), two_bytes(bytes + 3), two_bytes(bytes + 5), two_bytes(bytes + 7)};
}

/* No average, or one whose gap is not below the row's gap and goes into the window 1 to 16 times without a rest. */
static bool average_allowed(const struct row *row)
{
    if (row->window == 0 && row->average == 0)
        return true;
    for (unsigned n = 1; n <= MOST_PER_WINDOW; n++)
        if (n * row->average == row->window)
            return row->average >= row->gap;
    return false;
}

/* Level 1 to n; gap at least 1, and two bytes hold no more than 65,535; size 1 to S. */
static bool row_allowed(const struct link *link, const struct row *row)
{
    if (row->level < 1 || row->level > link->levels || row->gap < 1 || row->size < 1 || row->size > link->largest)
        return false;
    return average_allowed(row);
}

static unsigned rounded_up(unsigned ticks, unsigned gap)
{
    return ticks / gap + (ticks % gap != 0);
}

static unsigned smaller(unsigned one, unsigned other)
{
    return one < other ? one : other;
}

/* So many packets a stretch of ticks can hold: ticks divided by gap, rounded up. With an average the smaller of that and n for each whole window and,
   for the rest, the smaller of n and the rest divided by the gap, rounded up. */
static unsigned packets_within(unsigned ticks, const struct row *row)
{
    unsigned by_gap = rounded_up(ticks, row->gap);

    if (row->average == 0)
        return by_gap;
    unsigned n = row->window / row->average;
    return smaller(by_gap, ticks / row->window * n + smaller(n, rounded_up(ticks % row->window, row->gap)));
}

/* At most 200 whole rows, each within its limits. */
static bool read_rows(const struct link *link, const uint8_t *bytes, size_t len, struct rows *rows)
{
    rows->count = len / ROW;
    if (len % ROW != 0 || rows->count > MOST_ROWS)
        return false;
    for (size_t i = 0; i < rows->count; i++) {
        rows->row[i] = read_row(bytes + ROW * i);
        if (!row_allowed(link, &rows->row[i]))
            return false;
    }
    return true;
}

/* S; over all rows of level m packets within `own` ticks times size, over all rows of levels 1 to m - 1 packets within `urgent` ticks times size. The
   silence is added to each size and to S. */
static uint64_t level_sum(const struct link *link, const struct rows *rows, unsigned m, unsigned own, unsigned urgent)
{
    uint64_t sum = link->largest + link->silence;

    for (size_t i = 0; i < rows->count; i++) {
        const struct row *row = &rows->row[i];

        if (row->level <= m)
            sum += (uint64_t)packets_within(row->level == m ? own : urgent, row) * (row->size + link->silence);
    }
    return sum;
}

static uint64_t over(uint64_t sum, unsigned limit)
{
    return sum > limit ? sum - limit : 0;
}

/* By how much a level is over by document 01's test: all within d, at most d. */
static uint64_t over_bound(const struct link *link, const struct rows *rows, unsigned m)
{
    const unsigned d = link->bound[m];

    return over(level_sum(link, rows, m, d, d), d);
}

/* .. by that of a link with windows: all within w, at most w; then for every beta from 0 to w - 1, its own rows within beta + 1 and the more urgent
   ones within the smaller of d + beta and w, at most d + beta. The first that is over counts. */
static uint64_t over_finer(const struct link *link, const struct rows *rows, unsigned m, struct expected *answer)
{
    const unsigned d = link->bound[m], w = link->window[m];
    uint64_t units = over(level_sum(link, rows, m, w, w), w);

    answer->by_window = units != 0;
    for (unsigned beta = 0; beta < w && units == 0; beta++) {
        units = over(level_sum(link, rows, m, beta + 1, smaller(d + beta, w)), d + beta);
        answer->beta = beta;
    }
    return units;
}

static bool every_bound_holds(const struct link *link, const struct rows *rows)
{
    for (unsigned m = 1; m <= link->levels; m++)
        if (over_bound(link, rows, m) != 0)
            return false;
    return true;
}

/* The lowest level that fails, and the units by which it is over: 0 and 0 where none does. */
struct expected reference_short(const uint8_t *lk, size_t lk_len, const uint8_t *bytes, size_t len)
{
    struct expected answer = {.level = REFUSED};
    struct link link;
    struct rows rows;

    if (!read_link(lk, lk_len, &link) || !link_allowed(&link) || !read_rows(&link, bytes, len, &rows))
        return answer;
    answer.level = 0;
    answer.windows = has_windows(&link);
    answer.bounds_hold = every_bound_holds(&link, &rows);
    for (unsigned m = 1; m <= link.levels; m++) {
        answer.units = answer.windows ? over_finer(&link, &rows, m, &answer) : over_bound(&link, &rows, m);
        if (answer.units != 0) {
            answer.level = (uint8_t)m;
            break;
        }
    }
    return answer;
}

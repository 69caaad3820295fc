/* Random questions from a fixed seed: mostly well asked, with sums about their bounds; some damaged. */
#include <stdbool.h>

#include "questions.h"

/* Each answer to the level question must be met this often, or the questions are too much alike; with windows each level by each kind of condition, and
   each of the first beta. */
enum { AT_LEAST = 1000, EACH_WAY = 100, REFUSED = 255 };

/* So many links with windows to a thousand questions, and newcomers to each; one in so many has long windows. */
enum { LINKS = 25, NEWCOMERS = 16, ONE_LONG = 500, LONGEST_WINDOW = 32768 };

static uint64_t state = 20240601;

/* splitmix64 */
static uint64_t next_random(void)
{
    uint64_t z = state += 0x9E3779B97F4A7C15u;

    z = (z ^ z >> 30) * 0xBF58476D1CE4E5B9u;
    z = (z ^ z >> 27) * 0x94D049BB133111EBu;
    return z ^ z >> 31;
}

/* A number from low to high. */
static unsigned between(unsigned low, unsigned high)
{
    return low + (unsigned)(next_random() % (high - low + 1));
}

/* A number of up to 32 bits, of any size, often near a power of 2. */
static uint32_t any_number(void)
{
    uint64_t power = (uint64_t)1 << between(0, 32);

    if (between(0, 1) == 0)
        return (uint32_t)(next_random() % power);
    return (uint32_t)(power + between(0, 4) - 2);
}

static void random_next(void)
{
    uint32_t last = any_number();
    uint32_t gap = any_number();
    uint32_t now = between(0, 3) == 0 ? last + gap + between(0, 4) - 2 : any_number();

    ask_next(between(0, 2) == 0 ? 0 : any_number(), last, gap, now);
}

/* No silence, one that is allowed, or now and then one that is not. */
static unsigned random_silence(void)
{
    unsigned choice = between(0, 40);

    if (choice == 0)
        return between(65, 255);
    return choice < 16 ? 0 : between(1, choice < 30 ? 6 : 64);
}

/* Bounds that rise from S plus the silence on, with some room between them. */
static void random_link(struct question *q, unsigned n)
{
    unsigned bounds[MOST_LEVELS];
    unsigned largest = between(1, between(0, 2) == 0 ? 2048 : 40);
    unsigned silence = random_silence();
    unsigned most = largest + silence + n + between(0, between(0, 1) == 0 ? 2000 : 30000);
    unsigned below = largest + silence;

    if (most > 32768)
        most = 32768;
    for (unsigned m = 0; m < n; m++) {
        unsigned room = most - (n - 1 - m) - below;
        unsigned share = 2 * room / (n - m);

        bounds[m] = below + between(0, share < room ? share : room);
        below = bounds[m] + 1;
    }
    put_link(q, n, largest, silence, bounds);
}

/* A row, sometimes with an average: of up to 18 packets to a window, now and then with a rest or below the gap. Where it has one the gap is shorter, so
   that the average counts. */
static void random_row(struct question *q, unsigned level, unsigned gap, unsigned size)
{
    unsigned n = between(0, 3) == 0 ? between(1, between(0, 9) == 0 ? 18 : 16) : 0;
    unsigned average = between(0, 19) == 0 ? between(0, gap) : between(gap, 2 * gap);
    unsigned window = n * average + (between(0, 39) == 0);

    if (n == 0)
        put_row(q, level, gap, size);
    else if (window > 65535)
        put_average_row(q, level, gap, size, 65535, 65535);
    else
        put_average_row(q, level, between(1, gap), size, window, average);
}

/* Rows whose packets together fill about the line: a gap of rows times size and silence. Most are of one level or above it, so that each level
   comes to be the lowest that fails. */
static void random_rows(struct question *q, unsigned n, unsigned count)
{
    unsigned largest = q->lk[3] + 256u * q->lk[4];
    unsigned low = between(1, n);

    for (unsigned i = 0; i < count; i++) {
        unsigned size = between(1, largest);
        unsigned fair = (size + q->lk[5]) * count * between(1, 4) / 2 + 1;
        unsigned gap = between(0, 9) == 0 ? between(1, 65535) : between(fair / 2 + 1, 2 * fair);

        random_row(q, between(0, 3) == 0 ? between(1, n) : between(low, n), gap > 65535 ? 65535 : gap, size);
    }
}

/* A byte changed, or a length. */
static void damage(struct question *q)
{
    switch (between(0, 3)) {
    case 0:
        q->lk[between(0, (unsigned)q->lk_len - 1)] = (uint8_t)between(0, 255);
        break;
    case 1:
        q->lk_len = between(0, sizeof q->lk);
        break;
    case 2:
        q->rows_len = between(0, (unsigned)q->rows_len);
        break;
    default:
        q->rows[between(0, (unsigned)q->rows_len)] = (uint8_t)between(0, 20);
        break;
    }
}

static void random_level(void)
{
    struct question q;
    unsigned n = between(1, MOST_LEVELS);

    random_link(&q, n);
    random_rows(&q, n, between(0, 7) == 0 ? between(0, MOST_ROWS) : between(0, 12));
    if (between(0, 5) == 0)
        damage(&q);
    ask(&q);
}

/* A window at the bound, a little longer, or up to four times as long; where long ones are asked for, any. */
static unsigned random_window(unsigned bound, bool any)
{
    if (any)
        return between(bound, LONGEST_WINDOW);
    switch (between(0, 3)) {
    case 0:
        return bound;
    case 1:
        return bound + between(1, 8);
    default:
        return between(bound, 4 * bound);
    }
}

/* Short bounds, as the reference looks at every beta; the longest window of the link is given back. */
static unsigned random_window_link(struct question *q, unsigned n, bool any)
{
    unsigned bounds[MOST_LEVELS], windows[MOST_LEVELS], longest = 0;
    unsigned largest = between(1, any ? 200 : 12);
    unsigned silence = between(0, 2) == 0 ? between(1, 3) : 0;
    unsigned below = largest + silence;
    bool at_bounds = between(0, 9) == 0;

    for (unsigned m = 0; m < n; m++) {
        bounds[m] = below + between(0, any ? 400 : 12);
        below = bounds[m] + 1;
        windows[m] = at_bounds ? bounds[m] : random_window(bounds[m], any);
        longest = windows[m] > longest ? windows[m] : longest;
    }
    put_link(q, n, largest, silence, bounds);
    put_windows(q, between(0, 1), windows);
    return longest;
}

/* A newcomer, whose gap is often about a bound or a window of its link; one in three sends in bursts. */
static void random_newcomer(struct question *q, unsigned n, unsigned longest)
{
    unsigned largest = q->lk[3] + 256u * q->lk[4];
    unsigned level = between(1, n);
    unsigned size = between(1, between(0, 1) == 0 ? largest : (largest + 3) / 4);
    unsigned gap = between(1, 2 * (between(0, 1) == 0 ? longest : longest / 4 + 1));

    if (between(0, 2) != 0) {
        put_row(q, level, gap, size);
        return;
    }
    unsigned packets = between(1, 16), average = gap < 65535 / packets ? gap : 65535 / packets;
    put_average_row(q, level, between(1, average < 4 ? average : average / 4), size, packets * average, average);
}

/* A link with windows is filled as that of a hub is: newcomer by newcomer, and one that is let in stays. So most sets are nearly full, and fail by
   little. In the end one is damaged. */
static void random_filling(bool any)
{
    struct question q;
    unsigned n = between(1, MOST_LEVELS);
    unsigned longest = random_window_link(&q, n, any);

    for (unsigned i = 0; i < NEWCOMERS; i++) {
        size_t before = q.rows_len;

        random_newcomer(&q, n, longest);
        if (ask(&q).level != 0)
            q.rows_len = before;
    }
    damage(&q);
    ask(&q);
}

/* Whether links with windows were asked about in every way. */
static void check_windows(void)
{
    for (unsigned level = 1; level <= MOST_LEVELS; level++)
        if (tally.by_window[level] < EACH_WAY || tally.at_first[level] < EACH_WAY || tally.later[level] < EACH_WAY)
            differs("a level hardly ever fails in one of the three ways");
    for (unsigned beta = 0; beta < BETAS; beta++)
        if (tally.betas[beta] < EACH_WAY)
            differs("a level hardly ever fails at one of the first beta");
    if (tally.hold < AT_LEAST || tally.more < AT_LEAST || tally.less < AT_LEAST)
        differs("windows hardly ever let in, or let more in, or less, than bounds");
}

void random_questions(unsigned long count)
{
    for (unsigned long i = 0; i < count; i++) {
        random_next();
        random_level();
    }
    for (unsigned long i = 0; i < count / 1000 * LINKS; i++)
        random_filling(i % ONE_LONG == 0);
    for (unsigned level = 0; level <= MOST_LEVELS; level++)
        if (tally.levels[level] < AT_LEAST)
            differs("an answer is hardly ever met");
    if (tally.levels[REFUSED] < AT_LEAST)
        differs("255 is hardly ever met");
    check_windows();
}

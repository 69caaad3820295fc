/* How firmware asks the hub's questions: the admissions P1 to P7 and the offers of P8 and P10 of document 01, "Table of proved examples"; P1 to P3
   once more on a line that needs a tick of silence after each packet (document 02, R-4); a camera that sends in bursts; P4 beside a
   connection that is closed; and pumps on a line without a window and with one. */
#include <inttypes.h>
#include <stdio.h>

#include "mtredovim.h"

/* Link A: two levels, S 4, no silence, bounds 10 and 20. The same with a silence of 1. */
static const uint8_t link_a[] = {0x4C, 0x4B, 2, 4, 0, 0, 10, 0, 20, 0};
static const uint8_t silent_a[] = {0x4C, 0x4B, 2, 4, 0, 1, 10, 0, 20, 0};

/* One level, S 1, no silence, bound 4. The same with a window of 5 and of 3: an `LW`, which has a setting before its bounds. */
static const uint8_t short_line[] = {0x4C, 0x4B, 1, 1, 0, 0, 4, 0};
static const uint8_t window_5[] = {0x4C, 0x57, 1, 1, 0, 0, 0, 4, 0, 5, 0};
static const uint8_t window_3[] = {0x4C, 0x57, 1, 1, 0, 0, 0, 4, 0, 3, 0};

/* Rows of level, gap, size, window and average gap. */
enum { ROW = 9 };

/* P1, P2, P3, P5 and P6, one after the other. */
static const uint8_t in_turn[] = {
    1, 10, 0, 4, 0, 0, 0, 0, 0,
    2, 20, 0, 4, 0, 0, 0, 0, 0,
    1, 9,  0, 1, 0, 0, 0, 0, 0,
    2, 20, 0, 1, 0, 0, 0, 0, 0,
    2, 20, 0, 1, 0, 0, 0, 0, 0,
};

/* P4 instead of P3. */
static const uint8_t instead[] = {
    1, 10, 0, 4, 0, 0, 0, 0, 0,
    2, 20, 0, 4, 0, 0, 0, 0, 0,
    1, 9,  0, 2, 0, 0, 0, 0, 0,
};

/* P7: three of level 2, and one of level 1. */
static const uint8_t behind_three[] = {
    2, 20, 0, 4, 0, 0, 0, 0, 0,
    2, 20, 0, 4, 0, 0, 0, 0, 0,
    2, 20, 0, 4, 0, 0, 0, 0, 0,
    1, 10, 0, 4, 0, 0, 0, 0, 0,
};

/* P1, and a camera of level 2 with a gap of 2, and size 1: without an average, with 3 packets to a window of 24, and with one that is no average. */
static const uint8_t bursts[] = {
    1, 10, 0, 4, 0, 0, 0, 0, 0,
    2, 2,  0, 1, 0, 0, 0, 0, 0,
};
static const uint8_t camera[] = {
    1, 10, 0, 4, 0, 0, 0, 0, 0,
    2, 2,  0, 1, 0, 24, 0, 8, 0,
};
static const uint8_t no_camera[] = {
    1, 10, 0, 4, 0, 0, 0, 0, 0,
    2, 2,  0, 1, 0, 24, 0, 7, 0,
};

/* P4 once P1 is closed and its charge is over: P1 has no row then. */
static const uint8_t freed[] = {
    2, 20, 0, 4, 0, 0, 0, 0, 0,
    1, 9,  0, 2, 0, 0, 0, 0, 0,
};

/* Pumps of gaps 3, 5, 5 and 9, size 1. */
static const uint8_t pumps[] = {
    1, 3, 0, 1, 0, 0, 0, 0, 0,
    1, 5, 0, 1, 0, 0, 0, 0, 0,
    1, 5, 0, 1, 0, 0, 0, 0, 0,
    1, 9, 0, 1, 0, 0, 0, 0, 0,
};

/* The length of an `LK` or an `LW`, by its number of levels. */
static size_t link_length(const uint8_t *lk)
{
    return lk[1] == 0x4B ? 6 + 2 * (size_t)lk[2] : 7 + 4 * (size_t)lk[2];
}

/* Would the last of these rows be let in beside the others? */
static void may_join(const char *name, const uint8_t *lk, const uint8_t *rows, size_t count)
{
    size_t length = link_length(lk);
    unsigned answer = mtredovim_short_level(lk, length, rows, ROW * count);

    if (answer == 0)
        printf("%s: every level holds\n", name);
    else if (answer == 255)
        printf("%s: not well asked\n", name);
    else
        printf("%s: level %u is short by %" PRIu64 "\n", name, answer, mtredovim_short_units(lk, length, rows, ROW * count));
}

/* When would a packet that is offered now be eligible? */
static void when(const char *name, uint32_t flag, uint32_t last, uint32_t gap, uint32_t now)
{
    printf("%s: eligible at %" PRIu64 "\n", name, mtredovim_next_eligibility(flag, last, gap, now));
}

/* The same with an average, where the n-th packet before it was eligible at `nth`. */
static void when_averaged(const char *name, uint32_t last, uint32_t gap, uint32_t nth, uint32_t window, uint32_t now)
{
    uint64_t spaced = mtredovim_next_eligibility(1, last, gap, now);
    uint64_t behind_nth = mtredovim_next_eligibility(1, nth, window, now);

    printf("%s: eligible at %" PRIu64 "\n", name, spaced > behind_nth ? spaced : behind_nth);
}

int main(void)
{
    may_join("no rows", link_a, in_turn, 0);
    may_join("P1", link_a, in_turn, 1);
    may_join("P2", link_a, in_turn, 2);
    may_join("P3", link_a, in_turn, 3);
    may_join("P4", link_a, instead, 3);
    may_join("P5", link_a, in_turn, 4);
    may_join("P6", link_a, in_turn, 5);
    may_join("P7", link_a, behind_three, 4);
    may_join("P1 with a silence of 1", silent_a, in_turn, 1);
    may_join("P2 with a silence of 1", silent_a, in_turn, 2);
    may_join("P3 with a silence of 1", silent_a, in_turn, 3);
    when("P8, connection 1 at 0", 0, 0, 20, 0);
    when("P8, connection 0 at 1", 0, 0, 10, 1);
    when("P10, connection 0 at 8", 1, 1, 10, 8);
    may_join("the camera without its average", link_a, bursts, 2);
    may_join("the camera", link_a, camera, 2);
    may_join("the camera, with an average gap of 7", link_a, no_camera, 2);
    when("its third packet at 3", 1, 2, 2, 3);
    when_averaged("its fourth packet at 5", 4, 2, 0, 24, 5);
    may_join("P4, while P1 is closed and still charged", link_a, instead, 3);
    may_join("P4, once P1 is freed", link_a, freed, 2);
    may_join("the third pump", short_line, pumps, 3);
    may_join("the third pump, with a window of 5", window_5, pumps, 3);
    may_join("the fourth pump, with a window of 5", window_5, pumps, 4);
    may_join("the third pump, with a window of 3", window_3, pumps, 3);
    return 0;
}

/* Asks the archive's three functions boundary questions, worked ones from three files and a million random ones each; ends with 0 if all
   answers agree. */
#include <stdio.h>

#include "questions.h"

/* One number for each level. */
static void show_levels(const char *how, const unsigned long *counts)
{
    printf("; %s", how);
    for (int level = 1; level <= MOST_LEVELS; level++)
        printf(" %lu", counts[level]);
}

/* How the answers of links with windows came about. */
static void show_windows(void)
{
    printf("with windows: %lu hold, %lu of them not by the bounds; %lu fail that would hold by the bounds", tally.hold, tally.more, tally.less);
    show_levels("levels 1 to 8 fail within the window", tally.by_window);
    show_levels("at beta 0", tally.at_first);
    show_levels("later", tally.later);
    printf(", up to beta %lu\n", tally.longest_beta);
}

int main(int argc, char **argv)
{
    unsigned long before;

    if (argc != 4) {
        fprintf(stderr, "usage: %s NEXT-VECTORS LEVEL-VECTORS UNITS-VECTORS\n", argv[0]);
        return 2;
    }
    prepare();
    boundary_questions();
    window_questions();
    printf("boundary questions: %lu\n", tally.asked);
    before = tally.asked;
    next_vectors(argv[1]);
    level_vectors(argv[2]);
    units_vectors(argv[3]);
    printf("worked questions: %lu\n", tally.asked - before);
    before = tally.asked;
    random_questions(1000000);
    printf("random questions: %lu; answers to the level question:", tally.asked - before);
    for (int answer = 0; answer < 256; answer++)
        if (tally.levels[answer] != 0)
            printf(" %d: %lu", answer, tally.levels[answer]);
    printf("\n");
    show_windows();
    printf("%lu questions asked, %lu differ\n", tally.asked, tally.differing);
    return tally.differing == 0 ? 0 : 1;
}

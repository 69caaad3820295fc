/* Each question is put to the archive and to the reference, and the two answers are compared. */
#ifndef ASKING_H
#define ASKING_H

#include <stddef.h>
#include <stdint.h>

enum { BETAS = 16 };

struct tally {
    unsigned long asked;
    unsigned long differing;
    unsigned long levels[256]; /* how often each answer to the level question was given */
    /* of links with windows, by the reference: no level fails; each level within its window, at beta 0, at a later one */
    unsigned long hold;
    unsigned long by_window[9];
    unsigned long at_first[9];
    unsigned long later[9];
    unsigned long betas[BETAS]; /* how often a level failed at each of the first beta */
    unsigned long longest_beta;
    unsigned long more; /* .. no level fails, where document 01's test would refuse */
    unsigned long less; /* .. a level fails, where it would not */
};

/* The answers to a level question: the level, and the units by which it is over. */
struct shortage {
    uint8_t level;
    uint64_t units;
};

extern struct tally tally;

/* Before the first question. */
void prepare(void);

/* The archive's answer. A level question is put to two functions, and counts as two. */
uint64_t ask_next(uint32_t flag, uint32_t last, uint32_t gap, uint32_t now);

struct shortage ask_short(const uint8_t *lk, size_t lk_len, const uint8_t *rows, size_t rows_len);

/* Says that something is not as it must be, and counts it as a difference. */
void differs(const char *what);

#endif

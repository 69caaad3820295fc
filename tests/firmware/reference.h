/* The questions answered from document 01 and the rules after it alone: no code or layout is shared with the hub. */
#ifndef REFERENCE_H
#define REFERENCE_H

#include <stdbool.h>
#include <stddef.h>
#include <stdint.h>

/* What the level question is answered, and, for the tally, how that came about. */
struct expected {
    uint8_t level;
    uint64_t units;
    bool windows;       /* the link has windows, and the question is well asked */
    bool by_window;     /* the level fails within its window; else, with windows, at beta */
    unsigned beta;
    bool bounds_hold;   /* document 01's test would hold at every level */
};

uint64_t reference_next(uint32_t flag, uint32_t last, uint32_t gap, uint32_t now);

struct expected reference_short(const uint8_t *lk, size_t lk_len, const uint8_t *rows, size_t rows_len);

#endif

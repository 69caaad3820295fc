/* The kinds of questions. */
#ifndef QUESTIONS_H
#define QUESTIONS_H

#include <stddef.h>
#include <stdint.h>

#include "asking.h"

enum { ROW = 9, MOST_ROWS = 200, MOST_LEVELS = 8, BOUNDS = 10 };

/* A level question while it is put together, with room for two levels too many. */
struct question {
    uint8_t lk[7 + 4 * BOUNDS];
    size_t lk_len;
    uint8_t rows[ROW * (MOST_ROWS + 8)];
    size_t rows_len;
};

/* An LK with S, a silence and n bounds, at most BOUNDS. */
void put_link(struct question *q, unsigned n, unsigned largest, unsigned silence, const unsigned *bounds);

/* Its LK becomes an LW with this setting and as many windows. */
void put_windows(struct question *q, unsigned setting, const unsigned *windows);

/* A row more, without an average. */
void put_row(struct question *q, unsigned level, unsigned gap, unsigned size);

/* The same with one. */
void put_average_row(struct question *q, unsigned level, unsigned gap, unsigned size, unsigned window, unsigned average);

/* One with a whole LK is asked with the LWs that mean the same as well: all windows 0, with either setting; and, where the bounds are short, each window
   its bound. Each must be answered alike. */
struct shortage ask(const struct question *q);

/* The same, where the answers are known: level and units. */
void expect_over(const struct question *q, unsigned level, uint64_t units, const char *what);

/* .. where nothing is over: 0 or 255. */
void expect(const struct question *q, unsigned answer, const char *what);

void boundary_questions(void);

/* The same of links with windows. */
void window_questions(void);

/* So many of each of the two kinds, and of links with windows some beside them. */
void random_questions(unsigned long count);

/* Questions with worked answers, one to a line: `flag last gap now answer`; `link rows answer`, where the link is an LK or an LW, and the answer is
   the level or the units; bytes in hexadecimal, `-` for none. */
void next_vectors(const char *path);

void level_vectors(const char *path);

void units_vectors(const char *path);

#endif

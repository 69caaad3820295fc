/* Questions with worked answers, from files. A file that can't be read, or has no question, is a difference. */
#include <inttypes.h>
#include <stdbool.h>
#include <stdio.h>
#include <stdlib.h>
#include <string.h>

#include "questions.h"

enum { LONGEST = 4096 };

/* The bytes that a word names: `-` none, else two digits each. */
static size_t bytes_of(const char *word, uint8_t *bytes)
{
    size_t len = strcmp(word, "-") == 0 ? 0 : strlen(word) / 2;

    for (size_t i = 0; i < len; i++) {
        char pair[3] = {word[2 * i], word[2 * i + 1], 0};

        bytes[i] = (uint8_t)strtoul(pair, NULL, 16);
    }
    return len;
}

static void next_line(const char *line)
{
    uint32_t flag, last, gap, now;
    uint64_t answer;

    if (sscanf(line, "%" SCNu32 " %" SCNu32 " %" SCNu32 " %" SCNu32 " %" SCNu64, &flag, &last, &gap, &now, &answer) != 5)
        differs("a line that is no question");
    else if (ask_next(flag, last, gap, now) != answer)
        differs(line);
}

/* The answer is the units, or the level. */
static void short_line(const char *line, bool units)
{
    static char lk_word[LONGEST], rows_word[LONGEST];
    static uint8_t lk[LONGEST], rows[LONGEST];
    uint64_t answer;

    if (sscanf(line, "%4095s %4095s %" SCNu64, lk_word, rows_word, &answer) != 3) {
        differs("a line that is no question");
        return;
    }
    size_t lk_len = bytes_of(lk_word, lk);
    size_t rows_len = bytes_of(rows_word, rows);
    struct shortage given = ask_short(lk, lk_len, rows, rows_len);
    if ((units ? given.units : given.level) != answer)
        differs(line);
}

static void level_line(const char *line)
{
    short_line(line, false);
}

static void units_line(const char *line)
{
    short_line(line, true);
}

static void each_line(const char *path, void (*question)(const char *line))
{
    static char line[2 * LONGEST];
    FILE *file = fopen(path, "r");
    unsigned long before = tally.asked;

    if (file == NULL) {
        differs(path);
        return;
    }
    while (fgets(line, sizeof line, file) != NULL)
        if (line[0] != '#')
            question(line);
    fclose(file);
    if (tally.asked == before)
        differs(path);
}

void next_vectors(const char *path)
{
    each_line(path, next_line);
}

void level_vectors(const char *path)
{
    each_line(path, level_line);
}

void units_vectors(const char *path)
{
    each_line(path, units_line);
}

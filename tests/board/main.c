/* The hub from C: runs traces by calls of the archive, or makes random calls, or lends tables of any content, or answers over a pipe, or shows what a call takes.

       hub --traces NAME.trace ..                each trace by the header's wrappers, in both forms, many ticks at once and tick by tick, against NAME.answers
       hub --random SEED CALLS ASKED ANSWERED    random calls on fresh hubs; what was asked and what was answered go into two files, a line each
       hub --damage SEED HUBS ASKED ANSWERED     the same of tables of any content and any length
       hub --slip N --random ..                  the same of an archive with a slip, 1 to 18, which must be noticed
       hub --pipe                                blocks in and out, for tests/hub-cases and tests/instructions
       hub --stack                               the most bytes of stack that a call takes, and in the form that is tested once
       hub --call NAME ROWS CONNECTIONS WINDOWS FORM TICKS TIMES      so many calls on a hub with so many rows and connections, on which so many ticks are done; WINDOWS 1: its link
                                                 has windows; FORM 1: tested once. For tests/instructions */
#include <stdlib.h>
#include <string.h>

#include "board.h"

enum { PIECE = 65536, NAME = 1000 };

void must(bool holds, const char *what)
{
    if (holds)
        return;
    fflush(NULL);
    fprintf(stderr, "not as it must be: %s\n", what);
    exit(1);
}

static struct bytes read_all(const char *name)
{
    FILE *from = fopen(name, "rb");
    struct bytes all = {NULL, 0, 0};
    size_t got;

    must(from != NULL, name);
    do {
        all.at = realloc(all.at, all.length + PIECE);
        must(all.at != NULL, "no memory");
        got = fread(all.at + all.length, 1, PIECE, from);
        all.length += got;
    } while (got > 0);
    must(fclose(from) == 0, name);
    return all;
}

/* A trace in both forms, and in the one that is tested once also tick by tick; whether all answers are those of the file beside it. */
static bool trace_agrees(const char *name)
{
    char beside[NAME];
    size_t stem = strlen(name) - strlen(".trace");
    struct bytes trace = read_all(name), must_be;
    bool agrees = true;

    must(snprintf(beside, sizeof beside, "%.*s.answers", (int)stem, name) < NAME, "too long a name");
    must_be = read_all(beside);
    for (int way = 0; way < 3; way++) {
        struct bytes answers = {NULL, 0, 0};

        replay(trace.at, trace.length, way > 0, way == 2 ? ONE_BY_ONE : MIXED, &answers);
        agrees = agrees && answers.length == must_be.length && (answers.length == 0 || memcmp(answers.at, must_be.at, answers.length) == 0);
        free(answers.at);
    }
    free(trace.at);
    free(must_be.at);
    return agrees;
}

static int run_traces(char **names, int count)
{
    int differ = 0;

    for (int i = 0; i < count; i++)
        if (!trace_agrees(names[i])) {
            printf("%s differs\n", names[i]);
            differ++;
        }
    printf("%d of %d traces agree\n", count - differ, count);
    return differ == 0 ? 0 : 1;
}

static uint32_t number(const char *text)
{
    char *end;
    unsigned long value = strtoul(text, &end, 10);

    must(*text != 0 && *end == 0 && value <= UINT32_MAX, "a number among the words");
    return (uint32_t)value;
}

static struct lines open_lines(char **name)
{
    struct lines lines = {fopen(name[0], "w"), fopen(name[1], "w")};

    must(lines.asked != NULL && lines.answered != NULL, "a file can't be written");
    return lines;
}

static void close_lines(struct lines *lines)
{
    must(fclose(lines->asked) == 0 && fclose(lines->answered) == 0, "a file can't be written");
}

static int write_lines(char **words)
{
    struct lines lines = open_lines(words + 3);

    if (strcmp(words[0], "--random") == 0)
        random_calls(number(words[1]), number(words[2]), &lines);
    else
        damaged_tables(number(words[1]), number(words[2]), &lines);
    close_lines(&lines);
    return 0;
}

int main(int argc, char **argv)
{
    char **words = argv + 1;
    int count = argc - 1;

    if (count > 2 && strcmp(words[0], "--slip") == 0) {
        slip = (int)number(words[1]);
        must(slip >= 1 && slip <= SLIPS, "a slip that there is");
        words += 2;
        count -= 2;
    }
    if (count == 5 && (strcmp(words[0], "--random") == 0 || strcmp(words[0], "--damage") == 0))
        return write_lines(words);
    if (count == 8 && strcmp(words[0], "--call") == 0) {
        one_call(words[1], number(words[2]), number(words[3]), number(words[4]) == 1, number(words[5]) == 1, number(words[6]), number(words[7]));
        return 0;
    }
    if (count == 1 && strcmp(words[0], "--pipe") == 0)
        return serve_pipe(), 0;
    if (count == 1 && strcmp(words[0], "--stack") == 0)
        return show_stack(), 0;
    if (count > 1 && strcmp(words[0], "--traces") == 0)
        return run_traces(words + 1, count - 1);
    fprintf(stderr, "not understood; tests/board/main.c says what is\n");
    return 2;
}

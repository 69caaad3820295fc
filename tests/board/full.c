/* A hub with so many connections and rows: how many bytes of stack the calls on it take, and one call whose instructions are counted. */
#define _DEFAULT_SOURCE
#include <pthread.h>
#include <string.h>
#include <sys/mman.h>

#include "board.h"

enum { STACK = 1 << 20, PATTERN = 0xA5 };

/* All 2,048 places are reserved, as evenly as it goes; the rows are of the connections in turn. */
static void fill(struct lent *lent, uint32_t rows, uint32_t connections, bool windows)
{
    const uint32_t size = 2, places = 2048;
    struct mtredovim_link_figures levels = {8, size, 0, 0, {25000, 25001, 25002, 25003, 25004, 25005, 25006, 25007}, {0, 0, 0, 0, 0, 0, 0, 0}};
    struct call link;

    for (int i = 0; windows && i < MTREDOVIM_LEVELS; i++)
        levels.windows[i] = levels.bounds[i] + 1000;
    link = a_link_call(&levels);
    must(make_call(lent, &link, false).verdict == MTREDOVIM_DONE, "the link of a full hub");
    for (uint32_t i = 0; i < connections; i++) {
        uint32_t own = places / connections + (i < places % connections), gap = (25007 + own - 1) / own;
        struct call admit = a_call(ADMIT, 1 + i % MTREDOVIM_LEVELS, gap, size, 0, 0);

        must(make_call(lent, &admit, true).verdict == MTREDOVIM_DONE, "a connection of a full hub");
    }
    for (uint32_t i = 0; i < rows; i++) {
        struct call offer = a_call(OFFER, i % connections, size, i, 0, 0);

        must(make_call(lent, &offer, true).verdict == MTREDOVIM_DONE, "a row of a full hub");
    }
}

/* ---- stack */

static struct lent full;
static struct call asked;
static bool without_test;

static void *ask(void *nothing)
{
    make_call(&full, &asked, without_test);
    return nothing;
}

static void *ask_nothing(void *nothing)
{
    return nothing;
}

/* The bytes of a stack of its own that a thread has written to. */
static size_t taken_by(void *(*what)(void *))
{
    uint8_t *stack = mmap(NULL, STACK, PROT_READ | PROT_WRITE, MAP_PRIVATE | MAP_ANONYMOUS, -1, 0);
    pthread_attr_t attributes;
    pthread_t thread;
    size_t free = 0;

    must(stack != MAP_FAILED, "no memory");
    memset(stack, PATTERN, STACK);
    must(pthread_attr_init(&attributes) == 0 && pthread_attr_setstack(&attributes, stack, STACK) == 0, "no stack");
    must(pthread_create(&thread, &attributes, what, NULL) == 0 && pthread_join(thread, NULL) == 0, "no thread");
    while (free < STACK && stack[free] == PATTERN)
        free++;
    must(munmap(stack, STACK) == 0, "memory not given back");
    return STACK - free;
}

/* The most that a call takes on a hub that is full, and on a fresh one. */
static size_t most_of(bool tested, size_t start)
{
    size_t most = 0;

    without_test = tested;
    for (enum kind kind = LINK; kind < KINDS; kind++) {
        size_t taken;

        asked = a_call(kind, 1, 300, 1, 0, 0);
        taken = taken_by(ask);
        if (taken - start > most)
            most = taken - start;
    }
    return most;
}

void show_stack(void)
{
    size_t start = taken_by(ask_nothing), most[2] = {0, 0};

    for (int windows = 0; windows < 2; windows++) {
        full = lend_tables(whole);
        fill(&full, 2048, 199, windows == 1);
        for (int form = 0; form < 2; form++) {
            size_t taken = most_of(form == 1, start);

            if (taken > most[form])
                most[form] = taken;
        }
        return_tables(&full);
    }
    printf("%zu %zu\n", most[0], most[1]);
}

/* ---- instructions */

void one_call(const char *name, uint32_t rows, uint32_t connections, bool windows, bool tested, uint32_t ticks, uint32_t times)
{
    static const uint32_t numbers[KINDS][5] = {[LINK_FRAMES] = {10, 2, 0}, [ADMIT] = {1, 30000, 1, 0, 0}, [ADMIT_STAMPED] = {1, 30000, 1, 0},
        [ADMIT_SHARE] = {1, 1}, [OFFER] = {0, 1, 1}, [OFFER_STAMPED] = {0, 1, 1, 0}, [NOTICE] = {1, 1}, [TICKS] = {1000}};
    const struct call tick = a_call(TICK, 0, 0, 0, 0, 0);
    enum kind kind = LINK;
    struct call call;

    while (kind < KINDS && strcmp(name, name_of[kind]) != 0)
        kind++;
    must(kind < KINDS, "a call of this name");
    call = a_call(kind, numbers[kind][0], numbers[kind][1], numbers[kind][2], numbers[kind][3], numbers[kind][4]);
    full = lend_tables(whole);
    fill(&full, rows, connections, windows);
    while (ticks-- > 0)
        make_call(&full, &tick, true);
    while (times-- > 0)
        make_call(&full, &call, tested);
    return_tables(&full);
}

/* Four lent tables. Each ends at a page that may not be touched, and a known pattern stands before it: a call that reads behind its end ends the program, and what it
   writes before its beginning is seen. */
#define _DEFAULT_SOURCE
#include <string.h>
#include <sys/mman.h>
#include <unistd.h>

#include "board.h"

const size_t whole[TABLES] = {MTREDOVIM_LINE, MTREDOVIM_CONNECTIONS, MTREDOVIM_PLACES, MTREDOVIM_NOTICES};

enum { PATTERN = 0x5A };

/* The pages of a table: those that hold it, at least one, and the one behind them. */
static size_t held_pages(size_t numbers, size_t page)
{
    return (numbers * sizeof(uint32_t) + page) / page;
}

static uint32_t *lend_table(size_t numbers)
{
    size_t page = (size_t)sysconf(_SC_PAGESIZE), pages = held_pages(numbers, page), bytes = numbers * sizeof(uint32_t);
    uint8_t *from = mmap(NULL, (pages + 1) * page, PROT_READ | PROT_WRITE, MAP_PRIVATE | MAP_ANONYMOUS, -1, 0);

    must(from != MAP_FAILED, "no memory");
    must(mprotect(from + pages * page, page, PROT_NONE) == 0, "no guard page");
    memset(from, PATTERN, pages * page);
    memset(from + pages * page - bytes, 0, bytes);
    return (uint32_t *)(void *)(from + pages * page - bytes);
}

static void return_table(uint32_t *table, size_t numbers)
{
    size_t page = (size_t)sysconf(_SC_PAGESIZE), pages = held_pages(numbers, page), bytes = numbers * sizeof(uint32_t);
    uint8_t *from = (uint8_t *)table + bytes - pages * page;

    for (size_t i = 0; i < pages * page - bytes; i++)
        must(from[i] == PATTERN, "something was written before a table");
    must(munmap(from, (pages + 1) * page) == 0, "memory not given back");
}

struct lent lend_tables(const size_t length[TABLES])
{
    struct lent lent;

    for (int i = 0; i < TABLES; i++) {
        lent.length[i] = length[i];
        lent.table[i] = lend_table(length[i]);
    }
    return lent;
}

void return_tables(struct lent *lent)
{
    for (int i = 0; i < TABLES; i++)
        return_table(lent->table[i], lent->length[i]);
}

struct mtredovim_hub *lend_hub(void)
{
    return (struct mtredovim_hub *)(void *)lend_table(sizeof(struct mtredovim_hub) / sizeof(uint32_t));
}

void return_hub(struct mtredovim_hub *hub)
{
    return_table((uint32_t *)(void *)hub, sizeof *hub / sizeof(uint32_t));
}

void copy_tables(struct lent *to, const struct lent *from)
{
    for (int i = 0; i < TABLES; i++) {
        size_t both = to->length[i] < from->length[i] ? to->length[i] : from->length[i];

        memcpy(to->table[i], from->table[i], both * sizeof(uint32_t));
    }
}

bool same_tables(const struct lent *a, const struct lent *b)
{
    for (int i = 0; i < TABLES; i++)
        if (a->length[i] != b->length[i] || memcmp(a->table[i], b->table[i], a->length[i] * sizeof(uint32_t)) != 0)
            return false;
    return true;
}

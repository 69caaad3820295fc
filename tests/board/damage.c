/* Tables of any length and any content, lent to all calls: those of hubs in use, as they are and with one number or a few changed, mostly to one near it or near what
   stands elsewhere; the same cut or lengthened; random ones. Whether they are sound, and what each call is told, the simulator says. */
#include <string.h>

#include "board.h"

enum { CHANGES = 30, WIDTH = 5, CONNECTION_WIDTH = 25, LEVELS_CLOCK = 20, FRAME = 24, FRAMES_CLOCK = 27 };

/* A hub in use. */
static void use_hub(struct chance *chance, struct lent *lent)
{
    uint32_t kind = below(chance, 6), calls = below(chance, 120);
    struct mtredovim_link_figures levels = {2, 8, below(chance, 3), kind == 1, {60, 200, 0, 0, 0, 0, 0, 0}, {0, 0, 0, 0, 0, 0, 0, 0}};
    struct call link = a_call(LINK_FRAMES, 100, 8, below(chance, 3), 0, 0);

    if (kind == 2) {
        levels.windows[0] = 90;
        levels.windows[1] = 200;
    }
    if (kind < 4)
        link = a_link_call(&levels);
    if (kind < 5 || below(chance, 2))
        make_call(lent, &link, false);
    for (uint32_t i = 0; i < calls; i++) {
        uint32_t c = below(chance, 6), clock = lent->table[LINE][LEVELS_CLOCK];
        struct call call;

        switch (below(chance, 12)) {
        case 0: call = a_call(ADMIT, 1 + below(chance, 2), 20 + below(chance, 200), 1 + below(chance, 8), 0, 0); break;
        case 1: call = below(chance, 2) ? a_call(ADMIT, 2, 10, 2, 80, 20) : a_call(ADMIT_STAMPED, 2, 40, 4, 50, 0); break;
        case 2: call = a_call(ADMIT_SHARE, 1 + below(chance, 20), 1 + below(chance, 6), 0, 0, 0); break;
        case 3: call = a_call(CLOSE, c, 0, 0, 0, 0); break;
        case 4: call = a_call(NOTICE, 1 + below(chance, 8), draw(chance), 0, 0, 0); break;
        case 5: call = a_call(TICKS, below(chance, 30), 0, 0, 0, 0); break;
        case 6: call = a_call(OFFER_STAMPED, c, 1 + below(chance, 4), draw(chance), clock - below(chance, 20), 0); break;
        default: call = a_call(OFFER, c, 1 + below(chance, 8), draw(chance), 0, 0); break;
        }
        make_call(lent, &call, false);
    }
}

/* A place in a table, mostly where numbers are in use: in the first rows, or in the two numbers behind the connections. */
static uint32_t *some_place(struct chance *chance, struct lent *lent)
{
    uint32_t table = below(chance, TABLES), length = (uint32_t)lent->length[table], within = length;

    if (below(chance, 8))
        switch (table) {
        case CONNECTIONS: within = below(chance, 8) ? 4 * CONNECTION_WIDTH : length; break;
        case PLACES: within = 8 * WIDTH; break;
        case NOTICES: within = 4 * WIDTH; break;
        default: break;
        }
    if (table == CONNECTIONS && below(chance, 12) == 0)
        return lent->table[table] + length - 1 - below(chance, 2);
    return lent->table[table] + below(chance, within);
}

/* Another number in the place of one: near it, near a limit, the clock or nothing, or any. */
static uint32_t another(struct chance *chance, struct lent *lent, uint32_t number)
{
    static const uint32_t limits[] = {0, 1, 2, 8, 16, 64, 100, 200, 254, 255, 2048, 32768, 65535, 4000000000, UINT32_MAX};
    uint32_t clock = lent->table[LINE][lent->table[LINE][FRAME] != 0 ? FRAMES_CLOCK : LEVELS_CLOCK];

    switch (below(chance, 8)) {
    case 0: return number + 1;
    case 1: return number - 1;
    case 2: return limits[below(chance, sizeof limits / sizeof limits[0])] + below(chance, 2);
    case 3: return clock + below(chance, 3) - 1;
    case 4: return number + below(chance, 40) - 20;
    case 5: return *some_place(chance, lent);
    case 6: return draw(chance);
    default: return 0;
    }
}

/* Two rows of five exchange their places, or one is taken out. */
static void other_rows(struct chance *chance, struct lent *lent)
{
    uint32_t *table = lent->table[PLACES], *a = table + WIDTH * below(chance, 6), *b = table + WIDTH * below(chance, 6), kept[WIDTH];

    if (below(chance, 2)) {
        memmove(a, a + WIDTH, sizeof(uint32_t) * (size_t)(table + whole[PLACES] - a - WIDTH));
        return;
    }
    memcpy(kept, a, sizeof kept);
    memcpy(a, b, sizeof kept);
    memcpy(b, kept, sizeof kept);
}

static void change(struct chance *chance, struct lent *lent)
{
    uint32_t times = below(chance, 4) ? 1 : 2 + below(chance, 3);

    if (below(chance, 16) == 0) {
        other_rows(chance, lent);
        return;
    }
    while (times-- > 0) {
        uint32_t *place = some_place(chance, lent);

        *place = another(chance, lent, *place);
    }
}

/* Every call on these tables, each with numbers that could be good there. */
static void all_calls(struct chance *chance, struct lent *lent, struct lines *lines)
{
    struct lent before = lend_tables(lent->length), other = lend_tables(lent->length);
    const struct mtredovim_link_figures link = {2, 8, 1, 0, {60, 200, 0, 0, 0, 0, 0, 0}, {0, 0, 0, 0, 0, 0, 0, 0}};
    uint32_t c = below(chance, 4), clock = lent->length[LINE] > LEVELS_CLOCK ? lent->table[LINE][LEVELS_CLOCK] : 0;
    const struct call calls[KINDS] = {a_link_call(&link), a_call(LINK_FRAMES, 100, 8, 1, 0, 0), a_call(ADMIT, 2, 100, 2, 0, 0), a_call(ADMIT_STAMPED, 2, 100, 2, 50, 0),
        a_call(ADMIT_SHARE, 10, 2, 0, 0, 0), a_call(OFFER, c, 1, 7, 0, 0), a_call(OFFER_STAMPED, c, 1, 7, clock, 0), a_call(NOTICE, 1, 7, 0, 0, 0),
        a_call(CLOSE, c, 0, 0, 0, 0), a_call(TICK, 0, 0, 0, 0, 0), a_call(TICKS, below(chance, 300), 0, 0, 0, 0)};

    say_lent(lines, lent);
    for (int i = 0; i < KINDS; i++)
        say_both(lines, false, &calls[i], lent, &before, &other);
    return_tables(&before);
    return_tables(&other);
}

/* The tables in another length of one of them, or of all. */
static void other_length(struct chance *chance, const struct lent *lent, struct lines *lines)
{
    size_t length[TABLES], table = below(chance, TABLES);
    struct lent cut;

    memcpy(length, whole, sizeof length);
    switch (below(chance, 5)) {
    case 0: length[table] -= 1; break;
    case 1: length[table] += 1; break;
    case 2: length[table] = 0; break;
    case 3: memset(length, 0, sizeof length); break;
    default: length[table] = below(chance, 2 * (uint32_t)whole[table]); break;
    }
    cut = lend_tables(length);
    copy_tables(&cut, lent);
    all_calls(chance, &cut, lines);
    return_tables(&cut);
}

/* Any content, any lengths. */
static void any_tables(struct chance *chance, struct lines *lines)
{
    size_t length[TABLES];
    struct lent any;

    for (size_t i = 0; i < TABLES; i++)
        length[i] = below(chance, 8) ? whole[i] : below(chance, 2 * (uint32_t)whole[i]);
    any = lend_tables(length);
    for (size_t i = 0; i < TABLES; i++)
        for (size_t k = 0, used = below(chance, (uint32_t)length[i] + 1); k < used; k++)
            any.table[i][k] = below(chance, 3) ? draw(chance) : below(chance, 4);
    all_calls(chance, &any, lines);
    return_tables(&any);
}

void damaged_tables(uint64_t seed, unsigned long hubs, struct lines *lines)
{
    struct chance chance = {seed * 2 + 1};

    for (unsigned long i = 0; i < hubs; i++) {
        struct lent lent = lend_tables(whole), copy = lend_tables(whole);

        use_hub(&chance, &lent);
        all_calls(&chance, &lent, lines);
        for (int k = 0; k < CHANGES; k++) {
            copy_tables(&copy, &lent);
            change(&chance, &copy);
            all_calls(&chance, &copy, lines);
        }
        other_length(&chance, &lent, lines);
        any_tables(&chance, lines);
        return_tables(&lent);
        return_tables(&copy);
    }
}

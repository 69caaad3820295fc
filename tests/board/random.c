/* Random calls on fresh hubs of both disciplines, with numbers at their limits, past them and past what a record holds. Each is made in both forms. */
#include <string.h>

#include "board.h"

enum { CALLS_A_HUB = 600, FILLING = 1500 };

static const uint32_t NEAR_THE_END = 3999998000;

uint32_t draw(struct chance *chance)
{
    chance->state = chance->state * 6364136223846793005u + 1442695040888963407u;
    return (uint32_t)(chance->state >> 32);
}

uint32_t below(struct chance *chance, uint32_t n)
{
    return (uint32_t)(((uint64_t)draw(chance) * n) >> 32);
}

/* Mostly 1 to `most`; now and then a limit, one past it, or any number. */
static uint32_t about(struct chance *chance, uint32_t most)
{
    switch (below(chance, 24)) {
    case 0: return 0;
    case 1: return most;
    case 2: return most + 1;
    case 3: return draw(chance) >> below(chance, 32);
    default: return 1 + below(chance, most);
    }
}

static struct call a_link(struct chance *chance)
{
    struct mtredovim_link_figures link = {0, 0, 0, 0, {0}, {0}};
    bool windows = below(chance, 3) == 0;
    uint32_t bound;

    link.levels = 1 + below(chance, MTREDOVIM_LEVELS);
    link.largest = 1 + below(chance, below(chance, 2) ? 8 : 256);
    link.silence = below(chance, 2) ? 0 : below(chance, 6);
    link.early = below(chance, 3) == 0;
    bound = link.largest + link.silence + below(chance, 60);
    for (uint32_t m = 0; m < link.levels; m++) {
        link.bounds[m] = bound;
        link.windows[m] = windows ? bound + below(chance, 200) : 0;
        bound += 1 + below(chance, 200);
    }
    if (below(chance, 5) == 0)
        link.bounds[below(chance, MTREDOVIM_LEVELS)] = about(chance, 32768);
    if (below(chance, 5) == 0)
        link.windows[below(chance, MTREDOVIM_LEVELS)] = about(chance, 32768);
    if (below(chance, 24) == 0)
        link.levels = about(chance, MTREDOVIM_LEVELS);
    if (below(chance, 24) == 0)
        link.largest = about(chance, 2048);
    if (below(chance, 24) == 0)
        link.silence = about(chance, 64);
    if (below(chance, 24) == 0)
        link.early = draw(chance) >> below(chance, 32);
    return a_link_call(&link);
}

/* What is known of a hub that is asked: its link's levels, or frames; the numbers given, and which are by stamps. */
struct asked_hub {
    uint32_t levels, given, clock;
    bool frames, by_stamps[256];
};

static struct call an_admission(struct chance *chance, const struct asked_hub *hub)
{
    uint32_t gap = below(chance, 2) ? about(chance, 60) : about(chance, 2000), average = 0, window = 0, level = about(chance, hub->levels == 0 ? 1 : hub->levels);

    if (below(chance, 4) == 0) {
        average = gap + below(chance, 20);
        window = average * (1 + below(chance, 17));
    }
    if (hub->frames == (below(chance, 16) != 0))
        return a_call(ADMIT_SHARE, about(chance, 30), about(chance, 12), 0, 0, 0);
    if (below(chance, 4) == 0)
        return a_call(ADMIT_STAMPED, level, gap, about(chance, 8), about(chance, 300), 0);
    return a_call(ADMIT, level, gap, about(chance, 8), window, average);
}

static struct call an_offer(struct chance *chance, const struct asked_hub *hub)
{
    uint32_t connection = below(chance, 16) && hub->given > 0 ? below(chance, hub->given) : about(chance, 255);
    uint32_t length = below(chance, 8) ? 1 + below(chance, 3) : about(chance, 2048), stamp = below(chance, 8) ? hub->clock - below(chance, 60) : draw(chance);
    bool stamped = connection < 256 && hub->by_stamps[connection];

    if (below(chance, 16) == 0)
        stamped = !stamped;
    return stamped ? a_call(OFFER_STAMPED, connection, length, draw(chance), stamp, 0) : a_call(OFFER, connection, length, draw(chance), 0, 0);
}

static struct call a_link_of_either(struct chance *chance)
{
    return below(chance, 3) ? a_link(chance) : a_call(LINK_FRAMES, about(chance, 400), about(chance, 16), about(chance, 4), 0, 0);
}

static struct call some_call(struct chance *chance, const struct asked_hub *hub)
{
    uint32_t n = below(chance, 40);

    if (n < 1 || (hub->levels == 0 && !hub->frames && below(chance, 4)))
        return a_link_of_either(chance);
    if (n < 5)
        return an_admission(chance, hub);
    if (n < 6)
        return a_call(CLOSE, below(chance, 16) ? below(chance, hub->given + 1) : about(chance, 255), 0, 0, 0, 0);
    if (n < 8)
        return a_call(NOTICE, below(chance, 8) ? 1 + below(chance, 3) : about(chance, 2048), draw(chance), 0, 0, 0);
    if (n < 9)
        return a_call(TICKS, below(chance, 8) ? below(chance, 65536) : draw(chance), 0, 0, 0, 0);
    if (n < 13)
        return a_call(TICKS, below(chance, 40), 0, 0, 0, 0);
    return n < 22 ? a_call(TICK, 0, 0, 0, 0, 0) : an_offer(chance, hub);
}

struct told say_both(struct lines *lines, bool kept, const struct call *call, struct lent *lent, struct lent *before, struct lent *other)
{
    struct told told, tested;

    copy_tables(before, lent);
    told = make_call(lent, call, false);
    if (told.verdict != MTREDOVIM_NOT_SOUND) {
        copy_tables(other, before);
        tested = make_call(other, call, true);
        must(memcmp(&told, &tested, sizeof told) == 0, "the form that is tested once tells something else");
        must(same_tables(other, lent), "the form that is tested once leaves something else");
    }
    say_call(lines, kept, call, &told, before, lent);
    if (!kept)
        copy_tables(lent, before);
    return told;
}

/* What the tables say of a hub, and what an admission was told. */
static void look(struct asked_hub *hub, const struct lent *lent, const struct call *call, const struct told *told)
{
    const uint32_t *line = lent->table[LINE];
    bool admission = call->kind == ADMIT || call->kind == ADMIT_STAMPED || call->kind == ADMIT_SHARE;

    hub->levels = line[0];
    hub->frames = line[24] != 0;
    hub->clock = hub->frames ? line[27] : line[20];
    if (admission && told->verdict == MTREDOVIM_DONE) {
        hub->by_stamps[told->admission.number % 256] = call->kind == ADMIT_STAMPED;
        if (told->admission.number >= hub->given)
            hub->given = told->admission.number + 1;
    }
}

/* The i-th call of a hub that is filled: a link that has room, connections of small figures, then notices, then offers in turn. */
static struct call filling_call(struct chance *chance, bool frames, unsigned long i)
{
    const struct mtredovim_link_figures link = {3, 1, 0, below(chance, 2), {2000, 4000, 6000, 0, 0, 0, 0, 0}, {0, 0, 0, 0, 0, 0, 0, 0}};

    if (i == 0)
        return frames ? a_call(LINK_FRAMES, 30000, 4, 0, 0, 0) : a_link_call(&link);
    if (i <= 240)
        return frames ? a_call(ADMIT_SHARE, 40, 1 + below(chance, 19), 0, 0, 0) : a_call(ADMIT, 1 + below(chance, 2), 250 + below(chance, 100), 1, 0, 0);
    if (i <= 310)
        return a_call(NOTICE, 1, draw(chance), 0, 0, 0);
    return a_call(OFFER, (uint32_t)(i % 200), 1, draw(chance), 0, 0);
}

/* A link that breaks a limit by one of its numbers; the i-th of so many. */
enum { ODD_LINKS = 20 };

static struct call odd_link(unsigned long i)
{
    static const uint32_t odd[ODD_LINKS][2] = {{0, 0}, {0, 1}, {0, 9}, {1, 0}, {1, 10}, {1, 2049}, {2, 7}, {2, 65}, {3, 2}, {4, 4}, {4, 20}, {5, 10}, {5, 32769}, {6, 30}, {11, 1},
        {12, 0}, {12, 9}, {13, 32769}, {14, 30}, {19, 1}};
    const struct mtredovim_link_figures link = {2, 4, 1, 0, {10, 20, 0, 0, 0, 0, 0, 0}, {12, 20, 0, 0, 0, 0, 0, 0}};
    struct call call = a_link_call(&link);

    call.number[odd[i][0]] = odd[i][1];
    return call;
}

/* The i-th call of a hub, from its number: one in eight is first asked for odd links, one in eight is filled first, every second time with frames. */
static struct call call_of(struct chance *chance, unsigned long number, unsigned long i, const struct asked_hub *hub)
{
    if (number % 8 == 0 && i < ODD_LINKS)
        return odd_link(i);
    if (number % 8 == 5 && i < FILLING)
        return filling_call(chance, number % 16 == 13, i);
    return some_call(chance, hub);
}

/* A hub's calls; of one in four its clock soon ends. */
static unsigned long one_hub(struct chance *chance, unsigned long number, unsigned long most, struct lines *lines)
{
    struct lent lent = lend_tables(whole), before = lend_tables(whole), other = lend_tables(whole);
    unsigned long calls = CALLS_A_HUB + (number % 8 == 5 ? FILLING : 0);
    struct asked_hub hub = {0, 0, 0, false, {false}};

    if (calls > most)
        calls = most;
    say_lent(lines, &lent);
    for (unsigned long i = 0; i < calls; i++) {
        struct call call = call_of(chance, number, i, &hub);
        struct told told;

        if (number % 4 == 3 && hub.clock < NEAR_THE_END && hub.levels + hub.frames > 0)
            call = a_call(TICKS, NEAR_THE_END + below(chance, 2000), 0, 0, 0, 0);
        told = say_both(lines, true, &call, &lent, &before, &other);
        look(&hub, &lent, &call, &told);
    }
    return_tables(&lent);
    return_tables(&before);
    return_tables(&other);
    return calls;
}

void random_calls(uint64_t seed, unsigned long calls, struct lines *lines)
{
    struct chance chance = {seed * 2 + 1};
    unsigned long made = 0, hubs = 0;

    while (made < calls)
        made += one_hub(&chance, hubs++, calls - made, lines);
}

/* The calls of C as values. Every number of an answer is set to a known one before the call, so that one that is left alone is seen. */
#include "board.h"

#define LENT(lent)                                                                                                             \
    (lent)->table[LINE], (lent)->length[LINE], (lent)->table[CONNECTIONS], (lent)->length[CONNECTIONS], (lent)->table[PLACES], \
        (lent)->length[PLACES], (lent)->table[NOTICES], (lent)->length[NOTICES]
#define CALL(name, ...) (tested ? mtredovim_##name##_tested(LENT(lent), __VA_ARGS__) : mtredovim_##name(LENT(lent), __VA_ARGS__))
#define HUB_CALL(name, ...) (tested ? mtredovim_hub_##name##_tested(hub, __VA_ARGS__) : mtredovim_hub_##name(hub, __VA_ARGS__))

enum { UNTOLD = 0x77777777 };

const char *const name_of[KINDS] = {"link", "link_frames", "admit", "admit_stamped", "admit_share", "offer", "offer_stamped", "notice", "close", "tick", "ticks"};
const int asked_by[KINDS] = {MOST_ASKED, 3, 5, 4, 2, 3, 4, 2, 1, 0, 1};

struct call a_call(enum kind kind, uint32_t a, uint32_t b, uint32_t c, uint32_t d, uint32_t e)
{
    struct call call = {kind, {a, b, c, d, e}};

    return call;
}

struct call a_link_call(const struct mtredovim_link_figures *link)
{
    struct call call = a_call(LINK, link->levels, link->largest, link->silence, link->early, 0);

    for (int i = 0; i < MTREDOVIM_LEVELS; i++) {
        call.number[4 + i] = link->bounds[i];
        call.number[4 + MTREDOVIM_LEVELS + i] = link->windows[i];
    }
    return call;
}

static struct told nothing_told(void)
{
    struct told told = {UNTOLD, UNTOLD, {UNTOLD, UNTOLD, UNTOLD}, {UNTOLD, UNTOLD, UNTOLD, UNTOLD, UNTOLD, UNTOLD, UNTOLD}};

    return told;
}

static struct told call_function(struct lent *lent, const struct call *call, bool tested)
{
    uint32_t admission[MTREDOVIM_ADMISSION] = {UNTOLD, UNTOLD, UNTOLD};
    uint32_t departure[MTREDOVIM_DEPARTURE] = {UNTOLD, UNTOLD, UNTOLD, UNTOLD, UNTOLD, UNTOLD, UNTOLD};
    const uint32_t *n = call->number;
    struct told told = nothing_told();

    switch (call->kind) {
    case LINK: told.verdict = CALL(link, n[0], n[1], n[2], n[3], n + 4, n + 4 + MTREDOVIM_LEVELS); break;
    case LINK_FRAMES: told.verdict = CALL(link_frames, n[0], n[1], n[2]); break;
    case ADMIT: told.verdict = CALL(admit, n[0], n[1], n[2], n[3], n[4], admission); break;
    case ADMIT_STAMPED: told.verdict = CALL(admit_stamped, n[0], n[1], n[2], n[3], admission); break;
    case ADMIT_SHARE: told.verdict = CALL(admit_share, n[0], n[1], admission); break;
    case OFFER: told.verdict = CALL(offer, n[0], n[1], n[2], &told.number); break;
    case OFFER_STAMPED: told.verdict = CALL(offer_stamped, n[0], n[1], n[2], n[3], &told.number); break;
    case NOTICE: told.verdict = CALL(notice, n[0], n[1], &told.number); break;
    case CLOSE: told.verdict = CALL(close, n[0]); break;
    case TICK: told.verdict = CALL(tick, departure); break;
    case TICKS: told.verdict = CALL(ticks, n[0], &told.number, departure); break;
    case KINDS: must(false, "no such call");
    }
    mtredovim_put_admission(&told.admission, admission);
    mtredovim_put_departure(&told.departure, departure);
    return told;
}

struct told make_call(struct lent *lent, const struct call *call, bool tested)
{
    struct call asked = *call;
    struct lent to = *lent;
    struct told told;

    slip_before(&to, &asked);
    told = call_function(&to, &asked, tested);
    slip_after(lent, call, tested, &told);
    return told;
}

static struct mtredovim_link_figures link_of(const struct call *call)
{
    const uint32_t *n = call->number;
    struct mtredovim_link_figures link = {n[0], n[1], n[2], n[3], {0}, {0}};

    for (int i = 0; i < MTREDOVIM_LEVELS; i++) {
        link.bounds[i] = n[4 + i];
        link.windows[i] = n[4 + MTREDOVIM_LEVELS + i];
    }
    return link;
}

struct told make_hub_call(struct mtredovim_hub *hub, const struct call *call, bool tested)
{
    const uint32_t *n = call->number;
    struct mtredovim_link_figures link = link_of(call);
    struct told told = nothing_told();

    switch (call->kind) {
    case LINK: told.verdict = HUB_CALL(link, &link); break;
    case LINK_FRAMES: told.verdict = HUB_CALL(link_frames, n[0], n[1], n[2]); break;
    case ADMIT: told.verdict = HUB_CALL(admit, n[0], n[1], n[2], n[3], n[4], &told.admission); break;
    case ADMIT_STAMPED: told.verdict = HUB_CALL(admit_stamped, n[0], n[1], n[2], n[3], &told.admission); break;
    case ADMIT_SHARE: told.verdict = HUB_CALL(admit_share, n[0], n[1], &told.admission); break;
    case OFFER: told.verdict = HUB_CALL(offer, n[0], n[1], n[2], &told.number); break;
    case OFFER_STAMPED: told.verdict = HUB_CALL(offer_stamped, n[0], n[1], n[2], n[3], &told.number); break;
    case NOTICE: told.verdict = HUB_CALL(notice, n[0], n[1], &told.number); break;
    case CLOSE: told.verdict = HUB_CALL(close, n[0]); break;
    case TICK: told.verdict = HUB_CALL(tick, &told.departure); break;
    case TICKS: told.verdict = HUB_CALL(ticks, n[0], &told.number, &told.departure); break;
    case KINDS: must(false, "no such call");
    }
    return told;
}

uint32_t test_tables(const struct lent *lent)
{
    return mtredovim_test(LENT(lent));
}

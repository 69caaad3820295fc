// The header and both archives in a program of C++: a hub's calls, and the three questions asked of the same ward.
#include "mtredovim.h"

static struct mtredovim_hub hub;

int main()
{
    const struct mtredovim_link_figures link = {1, 4, 0, 0, {10, 0, 0, 0, 0, 0, 0, 0}, {0, 0, 0, 0, 0, 0, 0, 0}};
    const uint8_t lk[] = {0x4C, 0x4B, 1, 4, 0, 0, 10, 0}, rows[] = {1, 10, 0, 4, 0, 0, 0, 0, 0, 1, 10, 0, 4, 0, 0, 0, 0, 0};
    struct mtredovim_admission admission;
    struct mtredovim_departure departure;
    uint32_t eligibility, done;

    if (mtredovim_hub_link(&hub, &link) != MTREDOVIM_DONE || mtredovim_hub_admit(&hub, 1, 10, 4, 0, 0, &admission) != MTREDOVIM_DONE)
        return 1;
    // a second one: 4 + 4 + 4 units in 10 ticks
    if (mtredovim_hub_admit(&hub, 1, 10, 4, 0, 0, &admission) != MTREDOVIM_LEVEL_SHORT || admission.number != MTREDOVIM_NONE)
        return 2;
    if (mtredovim_short_level(lk, sizeof lk, rows, sizeof rows) != admission.level || mtredovim_short_units(lk, sizeof lk, rows, sizeof rows) != admission.units)
        return 3;
    if (mtredovim_hub_offer(&hub, 0, 4, 7, &eligibility) != MTREDOVIM_DONE || eligibility != 0)
        return 4;
    if (mtredovim_hub_ticks(&hub, 100, &done, &departure) != MTREDOVIM_DONE || done != 4 || departure.gone != 1 || departure.tag != 7)
        return 5;
    // the next one, offered at 4: a gap behind the first
    if (mtredovim_hub_offer_tested(&hub, 0, 1, 8, &eligibility) != MTREDOVIM_DONE || eligibility != mtredovim_next_eligibility(1, departure.eligibility, 10, 4))
        return 6;
    return mtredovim_hub_test(&hub) == MTREDOVIM_DONE ? 0 : 7;
}

/* A board's main loop over the hub: interrupts leave packets in a ring, a timer makes a tick of every unit of the line, what departs goes to the UART. The ward is that of
   P1, P2, P8, P9 and P10 of document 01, "Table of proved examples", with one packet more; README.md has what it prints, worked out by hand. Interrupts, timer and UART are
   stand-ins. */
#include <stdio.h>

#include "mtredovim.h"

enum { RING = 16, TICKS = 30, TEST_EVERY = 10 };

struct packet {
    uint32_t at, connection, length, tag;
};

static struct mtredovim_hub hub; /* all zero: fresh */

/* ---- the stand-ins: a packet arrives at its tick, and is lost where the ring is full; a departure is printed */

static const struct packet to_come[] = {{0, 1, 4, 81}, {1, 0, 4, 82}, {1, 0, 4, 9}, {8, 0, 1, 10}, {25, 1, 3, 11}};

static struct packet ring[RING];
static volatile unsigned filled; /* interrupts write it */
static unsigned drained;

static void interrupts(uint32_t tick)
{
    for (unsigned i = 0; i < sizeof to_come / sizeof to_come[0]; i++)
        if (to_come[i].at == tick && filled - drained < RING)
            ring[filled++ % RING] = to_come[i];
}

static void uart(const struct mtredovim_departure *d)
{
    printf("%2u: packet %u of connection %u has left; it came at %u and was eligible at %u\n", (unsigned)d->finish, (unsigned)d->tag, (unsigned)d->connection,
        (unsigned)d->arrival, (unsigned)d->eligibility);
}

/* ---- the board */

static int stop(const char *what, uint32_t verdict)
{
    printf("%s: verdict %u\n", what, (unsigned)verdict);
    return 1;
}

/* What the interrupts have left, offered. (On a board: with these interrupts held back, so that no two calls on one hub run at the same time.) */
static void drain(uint32_t tick)
{
    while (drained != filled) {
        const struct packet *p = &ring[drained++ % RING];
        uint32_t eligibility, verdict = mtredovim_hub_offer_tested(&hub, p->connection, p->length, p->tag, &eligibility);

        if (verdict != MTREDOVIM_DONE)
            printf("%2u: packet %u of connection %u is refused: verdict %u\n", (unsigned)tick, (unsigned)p->tag, (unsigned)p->connection, (unsigned)verdict);
    }
}

int main(void)
{
    const struct mtredovim_link_figures link = {2, 4, 0, 0, {10, 20, 0, 0, 0, 0, 0, 0}, {0, 0, 0, 0, 0, 0, 0, 0}};
    struct mtredovim_admission admission;
    struct mtredovim_departure departure;
    uint32_t verdict, done;

    /* set up by the calls that test the tables first */
    if ((verdict = mtredovim_hub_link(&hub, &link)) != MTREDOVIM_DONE)
        return stop("the link", verdict);
    if ((verdict = mtredovim_hub_admit(&hub, 1, 10, 4, 0, 0, &admission)) != MTREDOVIM_DONE)
        return stop("the pump", verdict);
    if ((verdict = mtredovim_hub_admit(&hub, 2, 20, 4, 0, 0, &admission)) != MTREDOVIM_DONE)
        return stop("the monitor", verdict);
    /* they were sound, and only calls write to them: from here on they need no test, but for damage that no call does */
    for (uint32_t tick = 0; tick < TICKS; tick++) {
        if (tick % TEST_EVERY == 0 && (verdict = mtredovim_hub_test(&hub)) != MTREDOVIM_DONE)
            return stop("the hub's memory", verdict);
        interrupts(tick);
        drain(tick);
        if ((verdict = mtredovim_hub_tick_tested(&hub, &departure)) != MTREDOVIM_DONE)
            return stop("the tick", verdict);
        if (departure.gone)
            uart(&departure);
    }
    /* nothing is to come: a thousand ticks in one call */
    verdict = mtredovim_hub_ticks(&hub, 1000, &done, &departure);
    printf("verdict %u, %u ticks more\n", (unsigned)verdict, (unsigned)done);
    return 0;
}

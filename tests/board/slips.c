/* An archive that is wrong in one way: what c-hub must notice. What is asked is changed before the call, or what it has told and left behind it. */
#include "board.h"

int slip;

enum {
    NO_SLIP,
    GAP_AND_SIZE_EXCHANGED,
    NO_WINDOWS,
    LONG_TABLE_TAKEN,
    BOUND_PAST_LEVELS_IGNORED,
    FULL_AS_CLOCK_ENDED,
    ELIGIBLE_A_TICK_LATE,
    NEXT_NUMBER,
    SHORT_BY_ONE_LESS,
    FINISH_A_TICK_EARLY,
    LENGTH_OF_DEPARTURE,
    ONE_TICK_MORE_DONE,
    REFUSAL_MOVES_CLOCK,
    NOT_SOUND_AS_NO_LINK,
    REFUSED_NUMBER_LEFT,
    ROWS_NOT_MOVED_UP,
    TESTED_FORM_TELLS_NO_PACKET,
    CLOSED_NUMBER_NOT_MARKED,
    REFUSED_ADMISSION_GIVES_0
};

void slip_before(struct lent *lent, struct call *call)
{
    uint32_t *n = call->number, size = n[2];

    if (slip == GAP_AND_SIZE_EXCHANGED && call->kind == ADMIT) {
        n[2] = n[1];
        n[1] = size;
    }
    if (slip == NO_WINDOWS && call->kind == LINK)
        for (int i = 0; i < MTREDOVIM_LEVELS; i++)
            n[4 + MTREDOVIM_LEVELS + i] = 0;
    if (slip == BOUND_PAST_LEVELS_IGNORED && call->kind == LINK)
        for (uint32_t i = n[0]; i < MTREDOVIM_LEVELS; i++)
            n[4 + i] = 0;
    if (slip == LONG_TABLE_TAKEN)
        for (int i = 0; i < TABLES; i++)
            if (lent->length[i] > whole[i])
                lent->length[i] = whole[i];
}

/* What a call that was done is told. */
static void slip_done(struct lent *lent, const struct call *call, bool tested, struct told *told)
{
    bool offer = call->kind == OFFER || call->kind == OFFER_STAMPED, ticks = call->kind == TICK || call->kind == TICKS, gone = ticks && told->departure.gone == 1;

    if (slip == ELIGIBLE_A_TICK_LATE && offer)
        told->number++;
    if (slip == NEXT_NUMBER && call->kind == ADMIT)
        told->admission.number++;
    if (slip == FINISH_A_TICK_EARLY && gone)
        told->departure.finish--;
    if (slip == LENGTH_OF_DEPARTURE && gone)
        told->departure.length++;
    if (slip == ONE_TICK_MORE_DONE && call->kind == TICKS)
        told->number++;
    if (slip == ROWS_NOT_MOVED_UP && gone && lent->length[PLACES] == whole[PLACES])
        lent->table[PLACES][2] ^= 1;
    if (slip == TESTED_FORM_TELLS_NO_PACKET && gone && tested)
        told->departure.gone = 0;
    if (slip == CLOSED_NUMBER_NOT_MARKED && call->kind == CLOSE)
        lent->table[CONNECTIONS][25 * call->number[0] + 7] = 0;
}

static void slip_refused(struct lent *lent, const struct call *call, struct told *told)
{
    bool admission = call->kind == ADMIT || call->kind == ADMIT_STAMPED || call->kind == ADMIT_SHARE;

    if (slip == FULL_AS_CLOCK_ENDED && told->verdict == MTREDOVIM_FULL)
        told->verdict = MTREDOVIM_CLOCK_ENDED;
    if (slip == SHORT_BY_ONE_LESS && admission && told->verdict == MTREDOVIM_LEVEL_SHORT)
        told->admission.units--;
    if (slip == REFUSAL_MOVES_CLOCK && told->verdict == MTREDOVIM_LENGTH_LIMIT)
        lent->table[LINE][20]++;
    if (slip == NOT_SOUND_AS_NO_LINK && told->verdict == MTREDOVIM_NOT_SOUND)
        told->verdict = MTREDOVIM_NO_LINK;
    if (slip == REFUSED_NUMBER_LEFT && call->kind == NOTICE)
        told->number = 0x77777777;
    if (slip == REFUSED_ADMISSION_GIVES_0 && admission)
        told->admission.number = 0;
}

void slip_after(struct lent *lent, const struct call *call, bool tested, struct told *told)
{
    if (told->verdict == MTREDOVIM_DONE)
        slip_done(lent, call, tested, told);
    else
        slip_refused(lent, call, told);
}

/* Calls and answers as lines of text: what sim/src/calls.rs reads, and what it answers. */
#include <inttypes.h>

#include "board.h"

enum { MOST_SAID = 60 };

static const char letter[TABLES] = {'l', 'c', 'p', 'n'};

void say_lent(struct lines *lines, const struct lent *lent)
{
    fputs("lent", lines->asked);
    for (int i = 0; i < TABLES; i++)
        fprintf(lines->asked, " %zu", lent->length[i]);
    for (int i = 0; i < TABLES; i++)
        for (size_t k = 0; k < lent->length[i]; k++)
            if (lent->table[i][k] != 0)
                fprintf(lines->asked, " %c%zu=%" PRIu32, letter[i], k, lent->table[i][k]);
    fputc('\n', lines->asked);
    fputs(test_tables(lent) == MTREDOVIM_DONE ? "sound\n" : "not sound\n", lines->answered);
}

static void say_departure(FILE *to, const struct mtredovim_departure *d)
{
    fprintf(to, " %" PRIu32 " %" PRIu32 " %" PRIu32 " %" PRIu32 " %" PRIu32 " %" PRIu32 " %" PRIu32, d->gone, d->connection, d->length, d->tag, d->arrival,
        d->eligibility, d->finish);
}

static void say_told(FILE *to, enum kind kind, const struct told *told)
{
    fprintf(to, "%" PRIu32, told->verdict);
    switch (kind) {
    case ADMIT:
    case ADMIT_STAMPED:
    case ADMIT_SHARE: fprintf(to, " %" PRIu32 " %" PRIu32 " %" PRIu32, told->admission.number, told->admission.level, told->admission.units); break;
    case OFFER:
    case OFFER_STAMPED:
    case NOTICE: fprintf(to, " %" PRIu32, told->number); break;
    case TICKS: fprintf(to, " %" PRIu32, told->number); /* fallthrough */
    case TICK: say_departure(to, &told->departure); break;
    default: break;
    }
}

/* Each number that is another one now; where they are many, how many, and a sum of all of them (FNV-1a, by words). */
static void say_changed(FILE *to, const struct lent *before, const struct lent *after)
{
    size_t places[MOST_SAID][2], count = 0;
    uint64_t sum = 0xcbf29ce484222325u;

    for (size_t i = 0; i < TABLES; i++)
        for (size_t k = 0; k < after->length[i]; k++)
            if (before->table[i][k] != after->table[i][k]) {
                const uint64_t words[] = {i, k, after->table[i][k]};

                for (int w = 0; w < 3; w++)
                    sum = (sum ^ words[w]) * 0x100000001b3u;
                if (count < MOST_SAID) {
                    places[count][0] = i;
                    places[count][1] = k;
                }
                count++;
            }
    for (size_t n = 0; n < count && count <= MOST_SAID; n++)
        fprintf(to, " %c%zu=%" PRIu32, letter[places[n][0]], places[n][1], after->table[places[n][0]][places[n][1]]);
    if (count > MOST_SAID)
        fprintf(to, " changed=%zu sum=%" PRIu64, count, sum);
}

void say_call(struct lines *lines, bool kept, const struct call *call, const struct told *told, const struct lent *before, const struct lent *after)
{
    fprintf(lines->asked, "%s %s", kept ? "make" : "try", name_of[call->kind]);
    for (int i = 0; i < asked_by[call->kind]; i++)
        fprintf(lines->asked, " %" PRIu32, call->number[i]);
    fputc('\n', lines->asked);
    say_told(lines->answered, call->kind, told);
    say_changed(lines->answered, before, after);
    fputc('\n', lines->answered);
}

/*
 * The three calls from C: book A of the rules, run for twelve slots and
 * listed, then one refusal of each call. Exits with 0 if all is as it should be.
 */
#include "slot_planner.h"

#include <stdio.h>
#include <string.h>

static const uint8_t book[] = {
    /* rows of six nodes: x disturbs y when they differ by 1 */
    0x02, 0, 0, 0, 0, 0, 0, 0,
    0x05, 0, 0, 0, 0, 0, 0, 0,
    0x0A, 0, 0, 0, 0, 0, 0, 0,
    0x14, 0, 0, 0, 0, 0, 0, 0,
    0x28, 0, 0, 0, 0, 0, 0, 0,
    0x10, 0, 0, 0, 0, 0, 0, 0,
    /* id, phase, period, deadline, plan length */
    0, 7, 0, 0, 0, 10, 0, 10, 0, 3,
    0, 9, 0, 0, 0, 12, 0, 12, 0, 3,
    /* steps */
    0, 1, 1, 2, 2, 3,
    5, 4, 4, 3, 3, 2,
    /* trailer */
    0x00, 0x5A, 0x00, 0x2A, 0x00, 0x16, 6, 2, 0x46, 0x42
};

static const char wanted[] =
    "0 7 0 0 0 1\n"
    "0 9 0 0 5 4\n"
    "1 7 0 1 1 2\n"
    "1 9 0 1 4 3\n"
    "2 7 0 2 2 3\n"
    "3 9 0 2 3 2\n"
    "10 7 1 0 0 1\n"
    "11 7 1 1 1 2\n";

static int wrong(const char *what, uint32_t answer)
{
    printf("%s: code %lu number %lu\n", what,
           (unsigned long)SLOT_CODE(answer), (unsigned long)SLOT_NUMBER(answer));
    return 1;
}

/* Appends the grants of one slot to the listing; the new end of it. */
static char *list(char *end, unsigned slot, const uint8_t *grant, uint32_t count)
{
    for (; count > 0; count--, grant += SLOT_GRANT_BYTES) {
        unsigned id = grant[0] * 256u + grant[1];
        unsigned long instance = ((unsigned long)grant[2] << 24) | ((unsigned long)grant[3] << 16)
                                 | ((unsigned long)grant[4] << 8) | grant[5];
        end += sprintf(end, "%u %u %lu %u %u %u\n", slot, id, instance,
                       (unsigned)grant[6], (unsigned)grant[7], (unsigned)grant[8]);
    }
    return end;
}

int main(void)
{
    uint8_t area[SLOT_AREA_BYTES];
    uint8_t grants[SLOT_GRANTS_BYTES];
    char listing[12 * 2 * 40] = "";
    char *end = listing;
    uint32_t answer;
    unsigned slot;

    answer = slot_check(book, sizeof book);
    if (answer != SLOT_DONE)
        return wrong("check", answer);
    answer = slot_start(book, sizeof book, area, sizeof area);
    if (answer != SLOT_DONE)
        return wrong("start", answer);
    for (slot = 0; slot < 12; slot++) {
        answer = slot_advance(book, sizeof book, area, sizeof area, grants, sizeof grants);
        if (SLOT_CODE(answer) != SLOT_DONE)
            return wrong("advance", answer);
        end = list(end, slot, grants, SLOT_NUMBER(answer));
    }
    fputs(listing, stdout);
    if (strcmp(listing, wanted) != 0)
        return wrong("the listing is not that of the rules; the last answer was", answer);

    answer = slot_check(book + 1, sizeof book - 1);
    if (SLOT_CODE(answer) != SLOT_BAD_DISTANCE)
        return wrong("check of a cut book", answer);
    answer = slot_start(book, sizeof book, area, sizeof area - 1);
    if (SLOT_CODE(answer) != SLOT_SHORT_MEMORY)
        return wrong("start with a short area", answer);
    answer = slot_advance(book, sizeof book, area, sizeof area, grants, 2 * SLOT_GRANT_BYTES - 1);
    if (SLOT_CODE(answer) != SLOT_SHORT_MEMORY)
        return wrong("advance with a short buffer", answer);
    puts("the header and the library agree");
    return 0;
}

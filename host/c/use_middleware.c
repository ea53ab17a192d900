/*
 * Both archives from C: book B of the rules, run for twelve slots, with what
 * is told of each flow before each slot, then refusals of slot_why. Exits with
 * 0 if all is as it should be.
 */
#include "slot_middleware.h"

#include <stdio.h>
#include <string.h>

#define FLOWS 3u
#define SLOTS 12u

static const uint8_t book[] = {
    /* rows of five nodes: x disturbs y when they differ by 1 */
    0x02, 0, 0, 0, 0, 0, 0, 0,
    0x05, 0, 0, 0, 0, 0, 0, 0,
    0x0A, 0, 0, 0, 0, 0, 0, 0,
    0x14, 0, 0, 0, 0, 0, 0, 0,
    0x08, 0, 0, 0, 0, 0, 0, 0,
    /* id, phase, period, deadline, plan length */
    0, 1, 0, 0, 0, 20, 0, 5, 0, 5,
    0, 2, 0, 0, 0, 10, 0, 10, 0, 1,
    0, 3, 0, 5, 0, 20, 0, 7, 0, 5,
    /* steps */
    0, 1, 0, 1, 0, 1, 0, 1, 0, 1,
    1, 2,
    3, 4, 3, 4, 3, 4, 3, 4, 3, 4,
    /* trailer */
    0x00, 0x66, 0x00, 0x3E, 0x00, 0x20, 5, 3, 0x46, 0x42
};

/*
 * For each slot what is told of the three flows: g granted, f finished, n not
 * released, or the place that is waited on.
 */
static const char *const wanted[SLOTS] = {
    "g0n", "g0n", "g0n", "g0n", "g0n", "fg1",
    "ffg", "ffg", "ffg", "ffg", "fg1", "ffg"
};

static int wrong(const char *what, uint32_t answer)
{
    printf("%s: code %lu number %lu\n", what,
           (unsigned long)SLOT_CODE(answer), (unsigned long)SLOT_NUMBER(answer));
    return 1;
}

/* What is told of a flow, in a letter or a digit. */
static char letter(uint32_t answer)
{
    if (SLOT_CODE(answer) != SLOT_DONE)
        return '!';
    switch (SLOT_WHY(answer)) {
    case SLOT_WHY_NOT_RELEASED:
        return 'n';
    case SLOT_WHY_FINISHED:
        return 'f';
    case SLOT_WHY_GRANTED:
        return 'g';
    case SLOT_WHY_WAITING:
        return (char)('0' + (int)SLOT_WHY_PLACE(answer));
    default:
        return '?';
    }
}

/* Asks of each flow before each slot, then runs it. */
static int run(uint8_t *area)
{
    uint8_t grants[SLOT_GRANTS_BYTES];
    uint32_t answer = slot_start(book, sizeof book, area, SLOT_AREA_BYTES);
    unsigned slot;

    if (answer != SLOT_DONE)
        return wrong("start", answer);
    for (slot = 0; slot < SLOTS; slot++) {
        char told[FLOWS + 1] = "";
        uint8_t lent[SLOT_AREA_BYTES];
        size_t place;

        memcpy(lent, area, sizeof lent);
        for (place = 0; place < FLOWS; place++)
            told[place] = letter(slot_why(book, sizeof book, area, SLOT_AREA_BYTES, place));
        printf("%u %s\n", slot, told);
        if (strcmp(told, wanted[slot]) != 0)
            return wrong("that is not what the rules tell in slot", slot);
        if (memcmp(lent, area, sizeof lent) != 0)
            return wrong("why has written to the area in slot", slot);
        answer = slot_advance(book, sizeof book, area, SLOT_AREA_BYTES, grants, sizeof grants);
        if (SLOT_CODE(answer) != SLOT_DONE)
            return wrong("advance", answer);
    }
    return 0;
}

int main(void)
{
    uint8_t area[SLOT_AREA_BYTES];
    uint32_t answer;

    if (run(area) != 0)
        return 1;
    answer = slot_why(book + 1, sizeof book - 1, area, sizeof area, 0);
    if (SLOT_CODE(answer) != SLOT_BAD_DISTANCE)
        return wrong("why of a cut book", answer);
    answer = slot_why(book, sizeof book, area, sizeof area - 1, 0);
    if (SLOT_CODE(answer) != SLOT_SHORT_MEMORY)
        return wrong("why with a short area", answer);
    answer = slot_why(book, sizeof book, area, sizeof area, FLOWS);
    if (SLOT_CODE(answer) != SLOT_BAD_PLACE)
        return wrong("why at a place past the last", answer);
    answer = slot_why(book, sizeof book, area, sizeof area, (size_t)-1);
    if (SLOT_CODE(answer) != SLOT_BAD_PLACE)
        return wrong("why at the largest place", answer);
    puts("the headers and the archives agree");
    return 0;
}

/*
 * The slot planner, for middleware in C: beside the radio stack's calls, what
 * operators ask of a run.
 *
 * Each call answers one number, code * 65536 + number. Code 0 is success.
 * No call keeps a pointer, allocates memory or has state of its own: all it
 * knows is in the slices that it is lent. slot_why takes about 1 KB of stack.
 *
 * It is an archive of its own, libmiddleware.a, which does not need the radio
 * stack's, libradio.a; a program may link both. slot_planner.h has the codes,
 * the sizes and what becomes of a run area.
 *
 * What the caller owes, and without which nothing is promised:
 * - a pointer is not null, not even with a length of 0;
 * - a run area belongs to one book, the one that it was started with, and
 *   nobody writes either while a call lasts.
 */
#ifndef SLOT_MIDDLEWARE_H
#define SLOT_MIDDLEWARE_H

#include "slot_planner.h"

#ifdef __cplusplus
extern "C" {
#endif

/* A code beside those of the radio stack's calls. Its number is 0. */
#define SLOT_BAD_PLACE 15u /* the book has no such flow place */

/* What slot_why tells of a flow, in the number that goes with SLOT_DONE. */
#define SLOT_WHY(answer) (SLOT_NUMBER(answer) >> 8)
#define SLOT_WHY_NOT_RELEASED 0u /* its first release is in a later slot */
#define SLOT_WHY_FINISHED 1u     /* its latest instance has had all its steps */
#define SLOT_WHY_GRANTED 2u      /* it is granted in the slot */
#define SLOT_WHY_WAITING 3u      /* it waits on another flow, whose place is
                                    SLOT_WHY_PLACE */

/* The place of the flow that is waited on; 0 with the other three. */
#define SLOT_WHY_PLACE(answer) (SLOT_NUMBER(answer) & 0xFFu)

/*
 * Why the flow at a place is silent in the slot that the area names next, or
 * that it is not: what slot_advance, called next, does with it. Places count
 * the book's flow records from 0. A release of that very slot has come. A flow
 * that waits does so on the first flow, in the order of the records, that is
 * granted in the slot and whose step conflicts with its own.
 * Codes 1 to 8, 13 (area_len under 36), 10, 12, 11, 15. A book that start
 * accepted is not tested for 9 again. Writes nothing.
 */
uint32_t slot_why(const uint8_t *book, size_t book_len,
                  const uint8_t *area, size_t area_len, size_t place);

#ifdef __cplusplus
}
#endif

#endif

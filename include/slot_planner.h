/*
 * The slot planner, for a radio stack in C: admission of a flow book, the
 * start of a run, and one slot at a time.
 *
 * Each call answers one number, code * 65536 + number. Code 0 is success.
 * No call keeps a pointer, allocates memory or has state of its own: all it
 * knows is in the slices that it is lent. Check and start take about 2.5 KB
 * of stack, advance about 1.2 KB.
 *
 * What the caller owes, and without which nothing is promised:
 * - slices do not overlap, and a pointer is not null, not even with a length
 *   of 0;
 * - a run area belongs to one book: it is advanced with the book that it was
 *   started with, and nobody else writes either while the run lasts.
 */
#ifndef SLOT_PLANNER_H
#define SLOT_PLANNER_H

#include <stddef.h>
#include <stdint.h>

#ifdef __cplusplus
extern "C" {
#endif

/* The two halves of an answer. */
#define SLOT_CODE(answer) ((uint32_t)(answer) >> 16)
#define SLOT_NUMBER(answer) ((uint32_t)(answer) & 0xFFFFu)

/* Codes. The number with a code is 0 where nothing else is said. */
#define SLOT_DONE 0u          /* number: the count of grants on advancing */
#define SLOT_SHORT_SLICE 1u   /* the book's slice is under 10 bytes */
#define SLOT_NO_MARK 2u       /* the slice does not end in 46 42 ("FB") */
#define SLOT_BAD_COUNT 3u     /* n is 0 or above 64, or m above 32 */
#define SLOT_BAD_DISTANCE 4u  /* the trailer's distances do not fit */
#define SLOT_BAD_ROW 5u       /* number: the first bad disturbance row */
#define SLOT_BAD_RECORD 6u    /* number: the first bad flow record */
#define SLOT_BAD_LENGTHS 7u   /* the plan lengths and the steps disagree */
#define SLOT_BAD_STEP 8u      /* number: the first bad step, over all plans */
#define SLOT_NO_BOUND 9u      /* number: the first flow without a bound */
#define SLOT_BAD_AREA 10u     /* number: the first bad flow place in the run
                                 area, or 0 for its slot */
#define SLOT_UNFINISHED 11u   /* number: the first flow whose release falls
                                 due while its last instance is unfinished */
#define SLOT_END_REACHED 12u  /* the run area's slot is 4,000,000,000 */
#define SLOT_SHORT_MEMORY 13u /* lent memory is too short */

/* Sizes. */
#define SLOT_MAX_NODES 64u
#define SLOT_MAX_FLOWS 32u
#define SLOT_MAX_LEN 32u      /* steps in one plan */
#define SLOT_MAX_BOOK 2890u   /* bytes of the longest book */
#define SLOT_AREA_BYTES 36u   /* the run area: the slot to run next (4, most
                                 significant byte first), then for each of 32
                                 flow places the steps that the flow's latest
                                 instance has done (1): its L where it is
                                 idle, 0 where the book has no such flow */
#define SLOT_GRANT_BYTES 9u   /* id (2), instance (4), step, sender, receiver;
                                 most significant byte first */
#define SLOT_GRANTS_BYTES (SLOT_MAX_FLOWS * SLOT_GRANT_BYTES) /* the grants of
                                 any slot of any book */

/*
 * Whether the book is well-formed and every flow has a response bound.
 * Codes 1 to 8, then 9. The book is the last part of the slice. Writes nothing.
 */
uint32_t slot_check(const uint8_t *book, size_t book_len);

/*
 * The same, then a run area at slot 0 with every flow idle.
 * Codes 1 to 8, 9, 13 (area_len under 36).
 * Writes the first 36 bytes of the area when it answers 0, else nothing.
 */
uint32_t slot_start(const uint8_t *book, size_t book_len,
                    uint8_t *area, size_t area_len);

/*
 * Runs the slot that the area names next, and moves the area on by one slot.
 * Codes 1 to 8, 13 (area_len under 36, or grants_len under 9 for each flow of
 * the book), 10, 12, 11. A book that start accepted is not tested for 9 again.
 * On success the number is the count of grants; writes the first 36 bytes of
 * the area and 9 bytes per grant from the front of the grants, and leaves later
 * bytes of both as lent. Refused, it writes nothing.
 */
uint32_t slot_advance(const uint8_t *book, size_t book_len,
                      uint8_t *area, size_t area_len,
                      uint8_t *grants, size_t grants_len);

#ifdef __cplusplus
}
#endif

#endif

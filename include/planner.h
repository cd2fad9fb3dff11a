/*
 * The review planner for C: one call, which works a plan that is written as text.
 *
 * docs/SHEETS.md says how such a text, a sheet, is written and what is answered; docs/RULES.md says what its lines mean.
 */
#ifndef PLANNER_H
#define PLANNER_H

#include <stddef.h>
#include <stdint.h>

#ifdef __cplusplus
extern "C" {
#endif

/* A sheet has at most so many bytes. Of a longer text carry looks at no byte but these and the one after them. */
#define PLANNER_SHEET_BYTES 16384

/*
 * Works the lines of a sheet in their order, and writes an answer to each into the list `answers`, from its front on. An
 * answer is a line too. None is written in part.
 *
 * The number returned is refusal * 2^32 + count; planner_refusal and planner_count take it apart.
 *
 * - refusal says why carry ended. It is 0 where every line of the sheet is answered. Else it is a number of the table in
 *   docs/RULES.md, section 8: 1 or 9 where the sheet's first line is refused, 15 where a line is not allowed, 16 where an
 *   answer does not fit into the rest of the list. A later line that is refused does not end the work: its answer is
 *   (refused N), with N from the same table, and carry goes on.
 * - count says how many bytes are written: never 2^32 or more, however long the list is. The bytes of the list after them
 *   keep their values.
 *
 * carry allocates nothing and keeps nothing from one call to the next. Calls may run at the same time, also on one sheet,
 * where each has a list of its own.
 *
 * It cannot check what its caller owes:
 *
 * - Neither pointer is NULL, not even where its length is 0. Each points to as many bytes as its length says.
 * - The sheet and the list have no byte in common.
 * - Until carry returns, nobody writes to the sheet, and nobody else reads the list or writes to it.
 * - The stack has room for the call. 512 KiB are enough.
 * - The program has no other function named carry.
 */
uint64_t carry(const uint8_t *sheet, size_t sheet_length, uint8_t *answers, size_t answers_length);

/* Why carry ended: 0, 1, 9, 15 or 16. */
static inline uint32_t planner_refusal(uint64_t carried)
{
    return (uint32_t)(carried >> 32);
}

/* How many bytes of the list carry has written. */
static inline size_t planner_count(uint64_t carried)
{
    return (size_t)(uint32_t)carried;
}

#ifdef __cplusplus
}
#endif

#endif

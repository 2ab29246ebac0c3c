/* The permit desk for C: judging a strip and searching one, from crate `desk_c` (`tools/libdesk` writes target/staticlib/libdesk.a, for x86-64).
 *
 * A slice is a pointer and a count of its elements. No pointer is null, also where the count is 0. What is lent for writing overlaps nothing else that is lent, and nobody else
 * touches what is lent before the call returns. Files are the whole bytes of rules.sx, goal.sx, terms.sx and strip.sx; one over DESK_BYTES is refused, not cut.
 * The calls keep nothing, allocate nothing and may be made from several threads at once, each with its own room.
 */
#ifndef DESK_H
#define DESK_H

#include <stddef.h>
#include <stdint.h>

#ifdef __cplusplus
extern "C" {
#endif

#define DESK_BYTES 16384u /* the most bytes that a file or a strip has */
#define DESK_ROOM 8192u   /* words of work room that are always enough */
#define DESK_HEIGHT 32u   /* the most that a search's height may be */

/* Judges a strip. 0: accepted; *first is its height, *second its number of nodes. Else the number of the refusal; *first is the file (1 rules, 2 goal, 3 terms, 4 strip, 0 none)
 * and *second the place. The room is zero afterwards, but for refusal 11, which leaves it as it came. */
uint32_t desk_judge(const uint8_t *rules, size_t rules_count, const uint8_t *goal, size_t goal_count, const uint8_t *terms, size_t terms_count,
                    const uint8_t *strip, size_t strip_count, uint32_t *room, size_t room_count, uint64_t *first, uint64_t *second);

/* Searches the first strip within a height. 0: found; *first is its height, *second its number of nodes, *third its length in bytes; the strip fills the front of the buffer
 * and the rest keeps its bytes. Else the number of the refusal; *first is the file, *second the place, *third 0, and the buffer is as it came. The room as above. */
uint32_t desk_propose(const uint8_t *rules, size_t rules_count, const uint8_t *goal, size_t goal_count, const uint8_t *terms, size_t terms_count, size_t height,
                      uint8_t *strip, size_t strip_count, uint32_t *room, size_t room_count, uint64_t *first, uint64_t *second, uint64_t *third);

#ifdef __cplusplus
}
#endif

#endif

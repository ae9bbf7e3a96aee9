/* resolver 65536 0: takes the value that is last in byte order, of equal ones the first: the latest of dates like 2026-11-30, say. A
 * tombstone counts as before every value: the key is deleted where all siblings are tombstones. Serves 64 siblings, each of any
 * length. */
#include "dvvstore.h"
#define SIBLINGS 64
#define IS_AFTER 2 /* of order */

u64 hook(const u8 *input, u64 used, u8 *output, u64 room)
{
    const struct head *head = (const struct head *)input;
    u64 greatest = 0, taken = DELETE;
#pragma unroll
    for (u64 i = 0; i < SIBLINGS; i++) {
        const struct row *row = row_at(input, i);
        if (i >= head->rows) continue;
        if (!(row->flags & IS_VALUE)) continue;
        if (taken != DELETE && order_values(input, row, row_at(input, greatest)) != IS_AFTER) continue;
        greatest = i;
        taken = TAKE(i);
    }
    return taken;
}

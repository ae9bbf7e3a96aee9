/* pre-commit 65536 0: refuses a value that doesn't begin with the value of each sibling, of up to 64, with code 1. A tombstone has none;
 * a delete passes. */
#include "dvvstore.h"
#define SIBLINGS 64

u64 hook(const u8 *input, u64 used, u8 *output, u64 room)
{
    const struct head *head = (const struct head *)input;
    const struct row *new = row_at(input, 0);
    if (!(new->flags & IS_VALUE)) return PASS;
#pragma unroll
    for (u64 i = 1; i <= SIBLINGS; i++) {
        const struct row *row = row_at(input, i);
        if (i >= head->rows) continue;
        if (row->length > new->length) return REJECT(1);
        const struct row begin = {.offset = new->offset, .length = row->length};
        if (!same_values(input, row, &begin)) return REJECT(1);
    }
    return PASS;
}

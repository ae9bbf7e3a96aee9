/* pre-commit 65536 0: refuses a value beside a sibling, of up to 64, that is another value, with code 1. The same value again, a value
 * beside tombstones alone, and a delete pass. */
#include "dvvstore.h"
#define SIBLINGS 64

u64 hook(const u8 *input, u64 used, u8 *output, u64 room)
{
    const struct head *head = (const struct head *)input;
    const struct row *new = row_at(input, 0);
    if (!(new->flags & IS_VALUE)) return PASS;
#pragma unroll
    for (u64 i = 1; i <= SIBLINGS; i++) {
        const struct row *row = row_at(input, i);
        if (i >= head->rows) continue;
        if (!(row->flags & IS_VALUE)) continue;
        if (!same_values(input, row, new)) return REJECT(1);
    }
    return PASS;
}

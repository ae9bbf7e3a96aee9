/* pre-commit 65536 0: a value begins with its version, four bytes, the lowest first. Refuses one under four bytes with code 1, and one
 * whose version is not greater than that of each sibling, of up to 64, with code 2. A sibling under four bytes, and a tombstone,
 * has no version. A delete passes. */
#include "dvvstore.h"
#define SIBLINGS 64
#define VERSION 4

u64 hook(const u8 *input, u64 used, u8 *output, u64 room)
{
    const struct head *head = (const struct head *)input;
    const struct row *new = row_at(input, 0);
    if (!(new->flags & IS_VALUE)) return PASS;
    if (new->length < VERSION) return REJECT(1);
    u64 version = number_at(input, new->offset, VERSION);
#pragma unroll
    for (u64 i = 1; i <= SIBLINGS; i++) {
        const struct row *row = row_at(input, i);
        if (i >= head->rows) continue;
        if (row->length < VERSION) continue;
        if (version <= number_at(input, row->offset, VERSION)) return REJECT(2);
    }
    return PASS;
}

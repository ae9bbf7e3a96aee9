/* pre-commit 65536 0: refuses values more than 1,024 bytes longer than the longest sibling, of up to 64, with code 1. A key without
 * siblings may begin with 1,024 bytes. A delete passes. */
#include "dvvstore.h"
#define SIBLINGS 64
#define MORE 1024

u64 hook(const u8 *input, u64 used, u8 *output, u64 room)
{
    const struct head *head = (const struct head *)input;
    u64 longest = 0;
#pragma unroll
    for (u64 i = 1; i <= SIBLINGS; i++) {
        const struct row *row = row_at(input, i);
        if (i < head->rows && row->length > longest) longest = row->length;
    }
    return row_at(input, 0)->length > longest + MORE ? REJECT(1) : PASS;
}

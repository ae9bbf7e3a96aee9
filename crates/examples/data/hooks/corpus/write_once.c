/* pre-commit 65536 0: a key that has a value is never written again */
#include "dvvstore.h"

u64 hook(const u8 *input, u64 used, u8 *output, u64 room)
{
    const struct head *head = (const struct head *)input;
    const struct row *rows = (const struct row *)(input + HEAD_SIZE);
#pragma unroll
    for (int i = 1; i < 32; i++) {
        if (i < head->rows && rows[i].flags & IS_VALUE) return REJECT(1);
    }
    return PASS;
}

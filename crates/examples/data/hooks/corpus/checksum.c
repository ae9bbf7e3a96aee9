/* pre-commit 65536 0: the last byte of a value of 2 to 32 bytes is the sum of the others */
#include "dvvstore.h"

u64 hook(const u8 *input, u64 used, u8 *output, u64 room)
{
    const struct row *new = (const struct row *)(input + HEAD_SIZE);
    u64 off = new->offset, len = new->length;
    if (!(new->flags & IS_VALUE)) return PASS;
    if (len < 2 || len > 32) return REJECT(1);
    if (off + len > used) return REJECT(1);
    u8 sum = 0;
#pragma unroll
    for (int i = 0; i < 31; i++) {
        if (i < len - 1) sum += input[off + i];
    }
    return sum == input[off + len - 1] ? PASS : REJECT(2);
}

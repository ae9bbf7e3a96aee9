/* pre-commit 65536 0: a field of type 7 is there, and has 4 bytes */
#include "dvvstore.h"

u64 hook(const u8 *input, u64 used, u8 *output, u64 room)
{
    const struct row *new = (const struct row *)(input + HEAD_SIZE);
    if (!(new->flags & IS_VALUE)) return PASS;
    const u8 *p = input + new->offset, *end = p + new->length;
    if (end > input + used) return REJECT(1);
#pragma unroll
    for (int i = 0; i < 8; i++) {
        if (p + 2 > end) return REJECT(2);
        if (p[0] == 7) return p[1] == 4 && p + 6 <= end ? PASS : REJECT(3);
        p += 2 + p[1];
    }
    return REJECT(4);
}

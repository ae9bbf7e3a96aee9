/* pre-commit 65536 0: up to 16 fields, each a type, a length and that many bytes, fill the value */
#include "dvvstore.h"

u64 hook(const u8 *input, u64 used, u8 *output, u64 room)
{
    const struct row *new = (const struct row *)(input + HEAD_SIZE);
    if (!(new->flags & IS_VALUE)) return PASS;
    u64 at = new->offset, end = at + new->length;
    if (end > used) return REJECT(1);
#pragma unroll
    for (int i = 0; i < 16; i++) {
        if (at == end) return PASS;
        if (at + 2 > end) return REJECT(2);
        at += 2 + input[at + 1];
        if (at > end) return REJECT(3);
    }
    return at == end ? PASS : REJECT(4);
}

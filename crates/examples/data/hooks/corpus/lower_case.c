/* pre-commit 65536 36: letters of a value of at most 32 bytes become small */
#include "dvvstore.h"

u64 hook(const u8 *input, u64 used, u8 *output, u64 room)
{
    const struct row *new = (const struct row *)(input + HEAD_SIZE);
    u64 off = new->offset, len = new->length;
    if (!(new->flags & IS_VALUE)) return PASS;
    if (len > 32 || off + len > used) return REJECT(1);
    *(u32 *)output = len;
#pragma unroll
    for (int i = 0; i < 32; i++) {
        if (i >= len) continue;
        u8 c = input[off + i];
        output[4 + i] = c >= 'A' && c <= 'Z' ? c + 32 : c;
    }
    return CHANGE;
}

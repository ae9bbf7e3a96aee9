/* pre-commit 65536 0: a value of at most 16 bytes, letters and digits */
#include "dvvstore.h"

u64 hook(const u8 *input, u64 used, u8 *output, u64 room)
{
    const struct row *new = (const struct row *)(input + HEAD_SIZE);
    u64 off = new->offset, len = new->length;
    if (!(new->flags & IS_VALUE)) return PASS;
    if (len > 16) return REJECT(1);
    if (off + len > used) return REJECT(2);
#pragma unroll
    for (int i = 0; i < 16; i++) {
        if (i >= len) continue;
        u8 c = input[off + i];
        if (!((c >= 'a' && c <= 'z') || (c >= 'A' && c <= 'Z') || (c >= '0' && c <= '9'))) return REJECT(3);
    }
    return PASS;
}

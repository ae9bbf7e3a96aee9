/* pre-commit 65536 260: spaces at the end are cut off, up to 8 of them */
#include "dvvstore.h"

u64 hook(const u8 *input, u64 used, u8 *output, u64 room)
{
    const struct row *new = (const struct row *)(input + HEAD_SIZE);
    u64 off = new->offset, len = new->length;
    if (!(new->flags & IS_VALUE) || len > 256) return PASS;
    if (off + len > used) return PASS;
    u64 n = len;
#pragma unroll
    for (int i = 0; i < 8; i++) {
        if (n > 0 && input[off + n - 1] == ' ') n--;
    }
    if (n == len) return PASS;
    *(u32 *)output = n;
    copy(output + 4, input + off, n);
    return CHANGE;
}

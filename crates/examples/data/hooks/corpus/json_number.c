/* pre-commit 65536 0: the number behind "n": has one to four digits and a comma or brace behind it */
#include "dvvstore.h"

u64 hook(const u8 *input, u64 used, u8 *output, u64 room)
{
    const struct row *new = (const struct row *)(input + HEAD_SIZE);
    u8 n[4] = {'"','n','"',':'};
    if (!(new->flags & IS_VALUE)) return PASS;
    u64 off = new->offset, len = new->length;
    if (len > 1024 || off + len > used) return REJECT(1);
    u64 place = find(input + off, len, n, 4);
    if (!place) return REJECT(2);
    u64 at = off + place - 1 + 4, left = len - (place - 1 + 4);
    if (left < 2) return REJECT(3);
#pragma unroll
    for (int i = 0; i < 5; i++) {
        if (i >= left) return REJECT(3);
        u8 c = input[at + i];
        if (c == ',' || c == '}') return i ? PASS : REJECT(4);
        if (c < '0' || c > '9') return REJECT(4);
    }
    return REJECT(5);
}

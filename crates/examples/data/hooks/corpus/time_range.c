/* pre-commit 65536 0: two little-endian times, the first before the second, at most a day apart */
#include "dvvstore.h"

u64 hook(const u8 *input, u64 used, u8 *output, u64 room)
{
    const struct row *new = (const struct row *)(input + HEAD_SIZE);
    if (!(new->flags & IS_VALUE)) return PASS;
    const u8 *p = input + new->offset;
    if (new->length < 16 || p + 16 > input + used) return REJECT(1);
    const u64 *t = (const u64 *)p;
    if (t[1] < t[0]) return REJECT(2);
    return t[1] - t[0] > 86400 ? REJECT(3) : PASS;
}

/* pre-commit 65536 0: the first byte is a type from 1 to 5, the second that many fields of 4 bytes behind it */
#include "dvvstore.h"

u64 hook(const u8 *input, u64 used, u8 *output, u64 room)
{
    const struct row *new = (const struct row *)(input + HEAD_SIZE);
    if (!(new->flags & IS_VALUE)) return PASS;
    const u8 *p = input + new->offset, *end = p + new->length;
    if (end > input + used || p + 2 > end) return REJECT(1);
    if (p[0] < 1 || p[0] > 5) return REJECT(2);
    return 2 + 4 * (u64)p[1] == new->length ? PASS : REJECT(3);
}

/* pre-commit 65536 0: a value is a UUID: 36 bytes with dashes at their places */
#include "dvvstore.h"

u64 hook(const u8 *input, u64 used, u8 *output, u64 room)
{
    const struct row *new = (const struct row *)(input + HEAD_SIZE);
    u64 off = new->offset, len = new->length;
    if (!(new->flags & IS_VALUE)) return PASS;
    if (len != 36) return REJECT(1);
    if (off > used - 36) return REJECT(2);
    const u8 *p = input + off;
    return p[8] == '-' && p[13] == '-' && p[18] == '-' && p[23] == '-' ? PASS : REJECT(3);
}

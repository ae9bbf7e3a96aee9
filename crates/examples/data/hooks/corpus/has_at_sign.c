/* pre-commit 65536 0: a value is an address: one @ that is not first or last */
#include "dvvstore.h"

u64 hook(const u8 *input, u64 used, u8 *output, u64 room)
{
    const struct row *new = (const struct row *)(input + HEAD_SIZE);
    u64 off = new->offset, len = new->length;
    u8 at[1] = {'@'};
    if (!(new->flags & IS_VALUE)) return PASS;
    if (len > 254 || off + len > used) return REJECT(1);
    u64 place = find(input + off, len, at, 1);
    return place > 1 && place < len ? PASS : REJECT(2);
}

/* pre-commit 65536 4100: a byte 1 is written in front of the value */
#include "dvvstore.h"

u64 hook(const u8 *input, u64 used, u8 *output, u64 room)
{
    const struct row *new = (const struct row *)(input + HEAD_SIZE);
    u32 off = new->offset, len = new->length;
    if (!(new->flags & IS_VALUE)) return PASS;
    if (len > 4095) return REJECT(1);
    if (off + len > used) return REJECT(2);
    *(u32 *)output = len + 1;
    output[4] = 1;
    copy(output + 5, input + off, len);
    return CHANGE;
}

/* pre-commit 65536 1024: the value is copied where the output has room for it */
#include "dvvstore.h"

u64 hook(const u8 *input, u64 used, u8 *output, u64 room)
{
    const struct row *new = (const struct row *)(input + HEAD_SIZE);
    u64 len = new->length, off = new->offset;
    if (!(new->flags & IS_VALUE)) return PASS;
    if (len + 4 > room) return REJECT(1);
    if (off + len > used) return REJECT(2);
    *(u32 *)output = len;
    copy(output + 4, input + off, len);
    return CHANGE;
}

/* pre-commit 65536 0: a number from 0 to 100 */
#include "dvvstore.h"

u64 hook(const u8 *input, u64 used, u8 *output, u64 room)
{
    const struct row *new = (const struct row *)(input + HEAD_SIZE);
    if (!(new->flags & IS_VALUE)) return PASS;
    u32 off = new->offset, len = new->length;
    if (len == 0 || len > 3) return REJECT(1);
    if (off + len > used) return REJECT(1);
    u64 n = decimal(input + off, len);
    return n <= 100 ? PASS : REJECT(2);
}

/* pre-commit 65536 0: a record of 24 bytes: version, size, time; the version is 1 or 2 */
#include "dvvstore.h"

u64 hook(const u8 *input, u64 used, u8 *output, u64 room)
{
    const struct row *new = (const struct row *)(input + HEAD_SIZE);
    if (!(new->flags & IS_VALUE)) return PASS;
    if (new->length != 24) return REJECT(1);
    if (new->offset + 24 > used) return REJECT(1);
    const u32 *r = (const u32 *)(input + new->offset);
    return r[0] == 1 || r[0] == 2 ? PASS : REJECT(2);
}

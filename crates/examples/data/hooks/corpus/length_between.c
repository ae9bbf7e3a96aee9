/* pre-commit 65536 0: a value has 1 to 1,024 bytes */
#include "dvvstore.h"

u64 hook(const u8 *input, u64 used, u8 *output, u64 room)
{
    const struct row *new = (const struct row *)(input + HEAD_SIZE);
    if (!(new->flags & IS_VALUE)) return PASS;
    if (new->length < 1 || new->length > 1024) return REJECT(1);
    return PASS;
}

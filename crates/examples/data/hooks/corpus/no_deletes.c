/* pre-commit 65536 0: a key is never deleted */
#include "dvvstore.h"

u64 hook(const u8 *input, u64 used, u8 *output, u64 room)
{
    const struct row *new = (const struct row *)(input + HEAD_SIZE);
    return new->flags & IS_VALUE ? PASS : REJECT(1);
}

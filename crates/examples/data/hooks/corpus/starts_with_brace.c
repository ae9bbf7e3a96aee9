/* pre-commit 65536 0: a value is a JSON object by its first and last byte */
#include "dvvstore.h"

u64 hook(const u8 *input, u64 used, u8 *output, u64 room)
{
    const struct row *new = (const struct row *)(input + HEAD_SIZE);
    const u8 *p = input + new->offset;
    const u8 *end = p + new->length;
    if (!(new->flags & IS_VALUE)) return PASS;
    if (new->length < 2) return REJECT(1);
    if (end > input + used) return REJECT(2);
    return p[0] == '{' && end[-1] == '}' ? PASS : REJECT(1);
}

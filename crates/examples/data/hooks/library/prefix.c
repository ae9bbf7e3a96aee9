/* pre-commit 65536 0: refuses values that don't begin with "user:" with code 1. A delete passes. */
#include "dvvstore.h"
#define PREFIX {'u', 's', 'e', 'r', ':'}

u64 hook(const u8 *input, u64 used, u8 *output, u64 room)
{
    const struct row *new = row_at(input, 0);
    u8 prefix[] = PREFIX;
    if (!(new->flags & IS_VALUE)) return PASS;
    if (new->length < sizeof prefix) return REJECT(1);
    return same_at(input, new->offset, prefix, sizeof prefix) ? PASS : REJECT(1);
}

/* pre-commit 65536 0: refuses values under 1 byte with code 1, and over 1,000 with code 2. A delete passes. */
#include "dvvstore.h"
#define LEAST 1
#define MOST 1000

u64 hook(const u8 *input, u64 used, u8 *output, u64 room)
{
    const struct row *new = row_at(input, 0);
    if (!(new->flags & IS_VALUE)) return PASS;
    if (new->length < LEAST) return REJECT(1);
    return new->length > MOST ? REJECT(2) : PASS;
}

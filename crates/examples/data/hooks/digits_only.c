/* Pre-commit: a value must be a number of 1 to 19 digits, else it is refused with code 2. A delete passes. */
#include "dvvstore.h"

u64 hook(const u8 *input, u64 used, u8 *output, u64 room)
{
    const struct row *new = row_at(input, 0);
    if (!(new->flags & IS_VALUE)) return PASS;
    return decimal_at(input, new->offset, new->length) == NO_NUMBER ? REJECT(2) : PASS;
}

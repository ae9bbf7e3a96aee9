/* Pre-commit: a value must end in the byte with which it begins, else it is refused with code 4. An empty one and a delete pass. */
#include "dvvstore.h"

u64 hook(const u8 *input, u64 used, u8 *output, u64 room)
{
    const struct row *new = row_at(input, 0);
    u64 length = at_most(new->length, 4096);
    if (length < 1) return PASS;
    const u8 *first = value_at(input, new, 1), *behind = first + length, *end = input + used;
    if (behind > end) return PASS;
    return *first == behind[-1] ? PASS : REJECT(4);
}

/* Pre-commit: a value is cut to whole words of 8 bytes. One over 127 bytes is refused with code 4; a delete passes. */
#include "dvvstore.h"
#define MOST 127

u64 hook(const u8 *input, u64 used, u8 *output, u64 room)
{
    const struct row *new = row_at(input, 0);
    u64 offset = new->offset, length = new->length;
    if (!(new->flags & IS_VALUE)) return PASS;
    if (length > MOST) return REJECT(4);
    u64 kept = length & ~7ULL;
    *(u32 *)output = kept;
    return copy_at(output, 4, input, offset, kept) ? CHANGE : REJECT(4);
}

/* Resolver: takes the last row, the sibling with the greatest vnode, of those the one with the greatest counter. Where that one
 * is a tombstone the siblings are kept. */
#include "dvvstore.h"

u64 hook(const u8 *input, u64 used, u8 *output, u64 room)
{
    const struct head *head = (const struct head *)input;
    u64 last = (u64)head->rows - 1;
    if (last > 63) return KEEP;
    return row_at(input, last)->flags & IS_VALUE ? TAKE(last) : KEEP;
}

/* Resolver: takes the sibling with the greatest counter, then the greatest vnode: of one vnode's writes the last, of several
 * vnodes' none that is later in time. Where that one is a tombstone the key is deleted. */
#include "dvvstore.h"

u64 hook(const u8 *input, u64 used, u8 *output, u64 room)
{
    u64 row = newest(input, used);
    return row < 64 ? TAKE(row) : KEEP;
}

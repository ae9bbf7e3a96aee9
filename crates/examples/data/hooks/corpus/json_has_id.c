/* pre-commit 65536 0: the text "id": stands in the value */
#include "dvvstore.h"

u64 hook(const u8 *input, u64 used, u8 *output, u64 room)
{
    const struct row *new = (const struct row *)(input + HEAD_SIZE);
    u8 id[5] = {'"','i','d','"',':'};
    if (!(new->flags & IS_VALUE)) return PASS;
    if (new->length > 4096) return REJECT(1);
    if (new->offset + new->length > used) return REJECT(1);
    return find(input + new->offset, new->length, id, 5) ? PASS : REJECT(2);
}

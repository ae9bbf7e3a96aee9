/* pre-commit 65536 0: a value is red, green or blue */
#include "dvvstore.h"

u64 hook(const u8 *input, u64 used, u8 *output, u64 room)
{
    const struct row *new = (const struct row *)(input + HEAD_SIZE);
    u8 red[3] = {'r','e','d'}, green[5] = {'g','r','e','e','n'}, blue[4] = {'b','l','u','e'};
    if (!(new->flags & IS_VALUE)) return PASS;
    u64 off = new->offset, len = new->length;
    if (len > 5 || off + len > used) return REJECT(1);
    const u8 *p = input + off;
    if (order(p, len, red, 3) == 1) return PASS;
    if (order(p, len, green, 5) == 1) return PASS;
    if (order(p, len, blue, 4) == 1) return PASS;
    return REJECT(2);
}

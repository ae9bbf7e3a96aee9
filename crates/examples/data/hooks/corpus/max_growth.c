/* pre-commit 65536 0: a value is at most twice as long as the newest sibling */
#include "dvvstore.h"

u64 hook(const u8 *input, u64 used, u8 *output, u64 room)
{
    const struct head *head = (const struct head *)input;
    const struct row *rows = (const struct row *)(input + HEAD_SIZE);
    if (!(rows[0].flags & IS_VALUE)) return PASS;
    u64 i = newest(input, used);
    if (i > 63) return PASS;
    u64 old = rows[i].length;
    return old && rows[0].length > 2 * old ? REJECT(1) : PASS;
}

/* pre-commit 65536 0: a value begins with a time of 8 bytes that is at least 5 after the newest sibling */
#include "dvvstore.h"

u64 hook(const u8 *input, u64 used, u8 *output, u64 room)
{
    const struct head *head = (const struct head *)input;
    const struct row *rows = (const struct row *)(input + HEAD_SIZE);
    if (!(rows[0].flags & IS_VALUE)) return PASS;
    if (rows[0].length < 8 || rows[0].offset + 8 > used) return REJECT(1);
    u64 i = newest(input, used);
    if (i >= head->rows || i > 63) return PASS;
    if (rows[i].length < 8 || rows[i].offset + 8 > used) return PASS;
    u64 now = *(const u64 *)(input + rows[0].offset), then = *(const u64 *)(input + rows[i].offset);
    return now < then + 5 ? REJECT(2) : PASS;
}

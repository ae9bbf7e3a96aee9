/* resolver 65536 0: where two values are equal the first is taken */
#include "dvvstore.h"

u64 hook(const u8 *input, u64 used, u8 *output, u64 room)
{
    const struct head *head = (const struct head *)input;
    const struct row *rows = (const struct row *)(input + HEAD_SIZE);
    if (head->rows != 2) return KEEP;
    u64 len = rows[0].length;
    if (len != rows[1].length || len > 1024) return KEEP;
    if (rows[0].offset + len > used || rows[1].offset + len > used) return KEEP;
    return same(input + rows[0].offset, input + rows[1].offset, len) ? TAKE(0) : KEEP;
}

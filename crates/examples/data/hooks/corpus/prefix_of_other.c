/* resolver 65536 0: of two values of which one begins with the other the longer is taken */
#include "dvvstore.h"

u64 hook(const u8 *input, u64 used, u8 *output, u64 room)
{
    const struct head *head = (const struct head *)input;
    const struct row *rows = (const struct row *)(input + HEAD_SIZE);
    if (head->rows != 2) return KEEP;
    u64 a = rows[0].length, b = rows[1].length;
    u64 n = a < b ? a : b;
    if (rows[0].offset + a > used || rows[1].offset + b > used) return KEEP;
    if (!same(input + rows[0].offset, input + rows[1].offset, n)) return KEEP;
    return a < b ? TAKE(1) : TAKE(0);
}

/* resolver 65536 516: the items of two carts, of up to 16 items of 16 bytes each, stand one after the other */
#include "dvvstore.h"

u64 hook(const u8 *input, u64 used, u8 *output, u64 room)
{
    const struct head *head = (const struct head *)input;
    const struct row *rows = (const struct row *)(input + HEAD_SIZE);
    if (head->rows != 2) return KEEP;
    u64 a = rows[0].offset, an = rows[0].length, b = rows[1].offset, bn = rows[1].length;
    if (an > 256 || bn > 256) return KEEP;
    if (a + an > used || b + bn > used) return KEEP;
    *(u32 *)output = an + bn;
    copy(output + 4, input + a, an);
    copy(output + 4 + an, input + b, bn);
    return WRITE;
}

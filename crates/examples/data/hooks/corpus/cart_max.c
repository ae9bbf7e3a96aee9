/* resolver 65536 68: two carts of 8 counts of 8 bytes: the greater of each */
#include "dvvstore.h"

u64 hook(const u8 *input, u64 used, u8 *output, u64 room)
{
    const struct head *head = (const struct head *)input;
    const struct row *rows = (const struct row *)(input + HEAD_SIZE);
    if (head->rows != 2) return KEEP;
    if (rows[0].length != 64 || rows[1].length != 64) return KEEP;
    if (rows[0].offset + 64 > used || rows[1].offset + 64 > used) return KEEP;
    const u64 *a = (const u64 *)(input + rows[0].offset), *b = (const u64 *)(input + rows[1].offset);
    u64 *out = (u64 *)(output + 4);
    *(u32 *)output = 64;
#pragma unroll
    for (int i = 0; i < 8; i++) out[i] = a[i] > b[i] ? a[i] : b[i];
    return WRITE;
}

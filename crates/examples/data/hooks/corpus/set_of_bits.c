/* resolver 65536 132: bit sets of 128 bytes are united */
#include "dvvstore.h"

u64 hook(const u8 *input, u64 used, u8 *output, u64 room)
{
    const struct head *head = (const struct head *)input;
    const struct row *rows = (const struct row *)(input + HEAD_SIZE);
    if (head->rows > 4) return KEEP;
    u64 *out = (u64 *)(output + 4);
#pragma unroll
    for (int r = 0; r < 4; r++) {
        if (r >= head->rows) continue;
        const u8 *p = input + rows[r].offset;
        if (rows[r].length != 128 || p + 128 > input + used) return KEEP;
#pragma unroll
        for (int i = 0; i < 16; i++) out[i] |= ((const u64 *)p)[i];
    }
    *(u32 *)output = 128;
    return WRITE;
}

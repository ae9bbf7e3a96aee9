/* resolver 65536 8: words of 4 bytes of flags are united */
#include "dvvstore.h"

u64 hook(const u8 *input, u64 used, u8 *output, u64 room)
{
    const struct head *head = (const struct head *)input;
    const struct row *rows = (const struct row *)(input + HEAD_SIZE);
    u32 flags = 0;
#pragma unroll
    for (int i = 0; i < 8; i++) {
        if (i >= head->rows) continue;
        if (rows[i].length != 4 || rows[i].offset > used - 4) return KEEP;
        flags |= *(const u32 *)(input + rows[i].offset);
    }
    ((u32 *)output)[0] = 4;
    ((u32 *)output)[1] = flags;
    return WRITE;
}

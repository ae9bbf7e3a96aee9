/* resolver 65536 0: the longest of the values is taken */
#include "dvvstore.h"

u64 hook(const u8 *input, u64 used, u8 *output, u64 room)
{
    const struct head *head = (const struct head *)input;
    const struct row *rows = (const struct row *)(input + HEAD_SIZE);
    u64 best = 0, length = 0;
    if (head->rows > 16) return KEEP;
#pragma unroll
    for (int i = 0; i < 16; i++) {
        if (i >= head->rows) continue;
        if (rows[i].length > length) {
            length = rows[i].length;
            best = i;
        }
    }
    return TAKE(best);
}

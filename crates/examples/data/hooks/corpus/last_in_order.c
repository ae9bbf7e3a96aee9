/* resolver 65536 0: the last of up to 4 values in byte order is taken */
#include "dvvstore.h"

u64 hook(const u8 *input, u64 used, u8 *output, u64 room)
{
    const struct head *head = (const struct head *)input;
    const struct row *rows = (const struct row *)(input + HEAD_SIZE);
    u64 best = 0;
    if (head->rows > 4) return KEEP;
    const u8 *p = input + rows[0].offset;
    u64 len = rows[0].length;
    if (p + len > input + used) return KEEP;
#pragma unroll
    for (int i = 1; i < 4; i++) {
        if (i >= head->rows) continue;
        const u8 *q = input + rows[i].offset;
        u64 n = rows[i].length;
        if (q + n > input + used) return KEEP;
        if (order(q, n, p, len) == 2) {
            p = q;
            len = n;
            best = i;
        }
    }
    return TAKE(best);
}

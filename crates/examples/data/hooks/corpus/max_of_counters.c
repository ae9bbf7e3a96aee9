/* resolver 65536 0: the greatest of up to 8 counters of 8 bytes is taken */
#include "dvvstore.h"

u64 hook(const u8 *input, u64 used, u8 *output, u64 room)
{
    const struct head *head = (const struct head *)input;
    const struct row *rows = (const struct row *)(input + HEAD_SIZE);
    u64 best = 0, most = 0;
#pragma unroll
    for (int i = 0; i < 8; i++) {
        if (i >= head->rows) continue;
        const u8 *p = input + rows[i].offset;
        if (rows[i].length != 8 || p + 8 > input + used) return KEEP;
        u64 n = *(const u64 *)p;
        if (n > most) {
            most = n;
            best = i;
        }
    }
    return head->rows > 8 ? KEEP : TAKE(best);
}

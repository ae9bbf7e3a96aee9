/* resolver 65536 0: values begin with a time of 8 bytes; the latest is taken */
#include "dvvstore.h"

u64 hook(const u8 *input, u64 used, u8 *output, u64 room)
{
    const struct head *head = (const struct head *)input;
    const struct row *rows = (const struct row *)(input + HEAD_SIZE);
    u64 best = 64, latest = 0;
#pragma unroll
    for (int i = 0; i < 8; i++) {
        if (i >= head->rows || !(rows[i].flags & IS_VALUE)) continue;
        u64 off = rows[i].offset;
        if (rows[i].length < 8) continue;
        if (off + 8 > used) continue;
        u64 t = *(const u64 *)(input + off);
        if (best == 64 || t > latest) {
            latest = t;
            best = i;
        }
    }
    return best < head->rows ? TAKE(best) : KEEP;
}

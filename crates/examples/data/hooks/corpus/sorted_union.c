/* resolver 65536 132: two sorted sets of up to 8 numbers of 8 bytes are merged */
#include "dvvstore.h"

u64 hook(const u8 *input, u64 used, u8 *output, u64 room)
{
    const struct head *head = (const struct head *)input;
    const struct row *rows = (const struct row *)(input + HEAD_SIZE);
    if (head->rows != 2) return KEEP;
    u64 an = rows[0].length / 8, bn = rows[1].length / 8;
    if (an > 8 || bn > 8) return KEEP;
    const u64 *a = (const u64 *)(input + rows[0].offset), *b = (const u64 *)(input + rows[1].offset);
    if ((const u8 *)(a + an) > input + used || (const u8 *)(b + bn) > input + used) return KEEP;
    u64 *out = (u64 *)(output + 4);
    u64 i = 0, j = 0, n = 0;
#pragma unroll
    for (int k = 0; k < 16; k++) {
        if (i < an && (j >= bn || a[i] <= b[j])) {
            if (j < bn && a[i] == b[j]) j++;
            out[n++] = a[i++];
        } else if (j < bn) {
            out[n++] = b[j++];
        }
    }
    *(u32 *)output = n * 8;
    return WRITE;
}

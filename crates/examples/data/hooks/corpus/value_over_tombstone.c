/* resolver 65536 0: the first value is taken; where there is none the key is deleted */
#include "dvvstore.h"

u64 hook(const u8 *input, u64 used, u8 *output, u64 room)
{
    const struct head *head = (const struct head *)input;
    const struct row *rows = (const struct row *)(input + HEAD_SIZE);
#pragma unroll
    for (int i = 0; i < 16; i++) {
        if (i < head->rows && (rows[i].flags & IS_VALUE)) return TAKE(i);
    }
    return head->rows > 16 ? KEEP : DELETE;
}

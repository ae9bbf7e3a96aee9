/* resolver 65536 12: two counters of 8 bytes are added */
#include "dvvstore.h"

u64 hook(const u8 *input, u64 used, u8 *output, u64 room)
{
    const struct head *head = (const struct head *)input;
    const struct row *rows = (const struct row *)(input + HEAD_SIZE);
    if (head->rows != 2) return KEEP;
    const struct row *a = &rows[0], *b = &rows[1];
    if (a->length != 8 || b->length != 8) return KEEP;
    if (a->offset + 8 > used || b->offset + 8 > used) return KEEP;
    u64 sum = *(const u64 *)(input + a->offset) + *(const u64 *)(input + b->offset);
    *(u32 *)output = 8;
    *(u64 *)(output + 4) = sum;
    return WRITE;
}

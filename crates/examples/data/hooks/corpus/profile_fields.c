/* resolver 65536 0: of two profiles the one with more fields, by its first byte, is taken */
#include "dvvstore.h"

u64 hook(const u8 *input, u64 used, u8 *output, u64 room)
{
    const struct head *head = (const struct head *)input;
    const struct row *rows = (const struct row *)(input + HEAD_SIZE);
    if (head->rows != 2) return KEEP;
    u64 x = rows[0].offset, y = rows[1].offset;
    if (!rows[0].length || !rows[1].length || x >= used || y >= used) return KEEP;
    return input[x] >= input[y] ? TAKE(0) : TAKE(1);
}

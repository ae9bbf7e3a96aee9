/* pre-commit 65536 0: a counter never falls below the newest sibling */
#include "dvvstore.h"

u64 hook(const u8 *input, u64 used, u8 *output, u64 room)
{
    const struct head *head = (const struct head *)input;
    const struct row *rows = (const struct row *)(input + HEAD_SIZE);
    if (!(rows[0].flags & IS_VALUE)) return PASS;
    u64 i = newest(input, used);
    if (i >= 64 || i >= head->rows) return PASS;
    const struct row *old = &rows[i];
    if (!(old->flags & IS_VALUE)) return PASS;
    if (old->length > 19 || old->offset + old->length > used) return PASS;
    if (rows[0].length > 19 || rows[0].offset + rows[0].length > used) return REJECT(1);
    u64 was = decimal(input + old->offset, old->length);
    u64 is = decimal(input + rows[0].offset, rows[0].length);
    if (is == NO_NUMBER) return REJECT(1);
    return was != NO_NUMBER && is < was ? REJECT(2) : PASS;
}

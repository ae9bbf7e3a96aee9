/* Resolver: a value is a set of 8-byte records. Of two siblings, both values of at most 12 whole records, it writes the
 * union: the first one's records, then those of the second that the first does not hold. Anything else is kept: one sibling,
 * more than two, a tombstone, a longer value, a length that is no multiple of 8. */
#include "dvvstore.h"
#define RECORDS 12
#define RECORD 8

u64 hook(const u8 *input, u64 used, u8 *output, u64 room)
{
    const struct head *head = (const struct head *)input;
    const struct row *rows = row_at(input, 0);
    if (head->rows != 2) return KEEP;
    if (!(rows[0].flags & rows[1].flags & IS_VALUE)) return KEEP;
    u64 length = rows[0].length, left = rows[1].length;
    if (length > RECORDS * RECORD || left > RECORDS * RECORD) return KEEP;
    if ((length | left) % RECORD) return KEEP;
    /* Two such values stand before offset 256, so the window has room behind them. */
    const u64 *first = (const u64 *)value_at(input, &rows[0], RECORDS * RECORD);
    const u64 *second = (const u64 *)value_at(input, &rows[1], RECORDS * RECORD);
    u64 held = length / RECORD, added = left / RECORD;
    copy(output + 4, first, length);
#pragma unroll
    for (u64 i = 0; i < RECORDS; i++) {
        if (i >= added) continue;
        u64 is_held = 0;
#pragma unroll
        for (u64 j = 0; j < RECORDS; j++) {
            if (j < held && first[j] == second[i]) is_held = 1;
        }
        if (is_held) continue;
        *(u64 *)(output + 4 + length) = second[i];
        length += RECORD;
    }
    *(u32 *)output = length;
    return WRITE;
}

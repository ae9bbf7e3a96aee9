/* pre-commit 4096 4096: writes small letters of values up to 256 bytes as capitals, and reads each byte by number_at: so the code is short
 * enough only where each test has a jump of its own. Longer values are refused with code 1. A delete passes. */
#include "dvvstore.h"
#define MOST 256

u64 hook(const u8 *input, u64 used, u8 *output, u64 room)
{
    const struct row *new = row_at(input, 0);
    if (!(new->flags & IS_VALUE)) return PASS;
    if (new->length > MOST) return REJECT(1);
    *(u32 *)output = new->length;
#pragma unroll
    for (u64 i = 0; i < MOST; i++) {
        if (i >= new->length) continue;
        u8 letter = number_at(input, (u64)new->offset + i, 1);
        output[4 + i] = letter >= 'a' && letter <= 'z' ? letter - 32 : letter;
    }
    return CHANGE;
}

/* pre-commit 65536 0: refuses values with a byte over 127 with code 1, and values over 4,000 bytes with code 2. A delete passes. */
#include "dvvstore.h"
#define MOST 4000
#define HIGH_BITS 0x8080808080808080ULL

u64 hook(const u8 *input, u64 used, u8 *output, u64 room)
{
    const struct row *new = row_at(input, 0);
    u64 length = new->length, seen = 0;
    if (length > MOST) return REJECT(2);
    const u64 *words = (const u64 *)value_at(input, new, MOST);
#pragma unroll
    for (u64 i = 0; i < MOST / 8; i++) {
        if (8 * i + 8 <= length) seen |= words[i];
    }
    /* The last bytes, up to seven. */
    u64 left = length % 8;
    seen |= number_at(input, new->offset + (length - left), 8) & ~(~0ULL << 8 * left);
    return seen & HIGH_BITS ? REJECT(1) : PASS;
}

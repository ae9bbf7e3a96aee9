/* pre-commit 65536 0: refuses values that are no UUID in small letters, as 123e4567-e89b-12d3-a456-426614174000 is one, with code 1. A
 * delete passes. */
#include "dvvstore.h"
#define LENGTH 36

u64 hook(const u8 *input, u64 used, u8 *output, u64 room)
{
    const struct row *new = row_at(input, 0);
    u8 text[40] = {0};
    if (!(new->flags & IS_VALUE)) return PASS;
    if (new->length != LENGTH) return REJECT(1);
    if (!load_at(text, sizeof text, input, new->offset, LENGTH)) return REJECT(1);
#pragma unroll
    for (u64 i = 0; i < LENGTH; i++) {
        u64 is_digit = text[i] >= '0' && text[i] <= '9', is_letter = text[i] >= 'a' && text[i] <= 'f';
        u64 is_dash_due = i == 8 || i == 13 || i == 18 || i == 23;
        if (is_dash_due ? text[i] != '-' : !is_digit && !is_letter) return REJECT(1);
    }
    return PASS;
}

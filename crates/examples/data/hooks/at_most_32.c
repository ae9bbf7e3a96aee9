/* Pre-commit: refuses values over 32 bytes with code 1. A delete passes: its length is 0. */
#include "dvvstore.h"
#define MOST 32

u64 hook(const u8 *input, u64 used, u8 *output, u64 room)
{
    const struct row *new = row_at(input, 0);
    return new->length > MOST ? REJECT(1) : PASS;
}

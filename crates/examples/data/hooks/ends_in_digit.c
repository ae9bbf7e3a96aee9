/* Pre-commit: a value of 1 to 64 bytes must end in a digit, else it is refused with code 3. A longer one, an empty one and a delete pass. */
#include "dvvstore.h"

u64 hook(const u8 *input, u64 used, u8 *output, u64 room)
{
    const struct row *new = row_at(input, 0);
    u64 offset = new->offset, length = new->length;
    if (length < 1 || length > 64) return PASS;
    u64 last = number_at(input, offset + length - 1, 1);
    return last < '0' || last > '9' ? REJECT(3) : PASS;
}

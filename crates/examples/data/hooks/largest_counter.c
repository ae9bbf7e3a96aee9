/* Resolver: of up to four siblings takes the one whose value is the largest decimal number of 1 to 19 digits, of equal ones
 * the first. A value that is no number, and a tombstone, counts as less than every number. Siblings are kept where none is
 * a number, and where there are more than four. */
#include "dvvstore.h"
#define SIBLINGS 4

u64 hook(const u8 *input, u64 used, u8 *output, u64 room)
{
    const struct head *head = (const struct head *)input;
    u64 best = 0, taken = KEEP;
    if (head->rows > SIBLINGS) return KEEP;
#pragma unroll
    for (u64 i = 0; i < SIBLINGS; i++) {
        const struct row *row = row_at(input, i);
        if (i < head->rows) {
            u64 number = decimal_at(input, row->offset, row->length);
            if (number + 1 > best) { best = number + 1; taken = TAKE(i); } /* NO_NUMBER + 1 is 0 */
        }
    }
    return taken;
}

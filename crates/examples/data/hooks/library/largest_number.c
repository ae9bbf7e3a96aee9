/* resolver 65536 0: takes the largest number, of equal ones the first. A value is a number of 1 to 19 digits; a tombstone, and a value
 * that is none, counts as less than every number, and where no sibling is one they are kept. Serves 64 siblings. */
#include "dvvstore.h"
#define SIBLINGS 64

u64 hook(const u8 *input, u64 used, u8 *output, u64 room)
{
    const struct head *head = (const struct head *)input;
    u64 largest = 0, taken = KEEP;
#pragma unroll
    for (u64 i = 0; i < SIBLINGS; i++) {
        const struct row *row = row_at(input, i);
        if (i >= head->rows) continue;
        u64 number = decimal_at(input, row->offset, row->length);
        if (number + 1 > largest) { largest = number + 1; taken = TAKE(i); } /* NO_NUMBER + 1 is 0 */
    }
    return taken;
}

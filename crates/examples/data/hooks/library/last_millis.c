/* resolver 65536 0: takes the value with the latest time. A value begins with its time, thirteen digits (milliseconds since 1970), and
 * goes on as it likes. Of equal times the first sibling is taken. A tombstone, and a value that begins otherwise, counts as older
 * than every time; where no sibling has a time they are kept. Serves 64 siblings, each of any length. */
#include "dvvstore.h"
#define SIBLINGS 64
#define DIGITS 13

u64 hook(const u8 *input, u64 used, u8 *output, u64 room)
{
    const struct head *head = (const struct head *)input;
    u64 latest = 0, taken = KEEP;
#pragma unroll
    for (u64 i = 0; i < SIBLINGS; i++) {
        const struct row *row = row_at(input, i);
        if (i >= head->rows) continue;
        if (row->length < DIGITS) continue;
        u64 time = decimal_at(input, row->offset, DIGITS);
        if (time + 1 > latest) { latest = time + 1; taken = TAKE(i); } /* NO_NUMBER + 1 is 0 */
    }
    return taken;
}

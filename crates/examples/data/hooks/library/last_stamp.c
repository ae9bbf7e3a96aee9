/* resolver 65536 0: takes the value with the greatest stamp. A value begins with its stamp, eight bytes, the lowest first, and goes on as
 * it likes. Of equal stamps the first sibling is taken. A tombstone, and a value under eight bytes, has no stamp; where no sibling
 * has one they are kept. Serves 64 siblings, each of any length. */
#include "dvvstore.h"
#define SIBLINGS 64
#define STAMP 8

u64 hook(const u8 *input, u64 used, u8 *output, u64 room)
{
    const struct head *head = (const struct head *)input;
    u64 greatest = 0, taken = KEEP;
#pragma unroll
    for (u64 i = 0; i < SIBLINGS; i++) {
        const struct row *row = row_at(input, i);
        if (i >= head->rows) continue;
        if (row->length < STAMP) continue;
        u64 stamp = number_at(input, row->offset, STAMP);
        if (taken == KEEP || stamp > greatest) { greatest = stamp; taken = TAKE(i); }
    }
    return taken;
}

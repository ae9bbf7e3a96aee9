/* resolver 65536 0: takes the longest value, of equal ones the first. A tombstone counts as shorter than every value: the key is deleted
 * where all siblings are tombstones. Serves 64 siblings, each of any length. */
#include "dvvstore.h"
#define SIBLINGS 64

u64 hook(const u8 *input, u64 used, u8 *output, u64 room)
{
    const struct head *head = (const struct head *)input;
    u64 most = 0, taken = TAKE(0);
#pragma unroll
    for (u64 i = 0; i < SIBLINGS; i++) {
        const struct row *row = row_at(input, i);
        if (i >= head->rows) continue;
        if (!(row->flags & IS_VALUE)) continue;
        if (row->length + 1ULL > most) { most = row->length + 1ULL; taken = TAKE(i); }
    }
    return taken;
}

/* resolver 65536 76: of each writer's counts the greatest, and their sum. A value is 72 bytes, nine numbers of eight bytes, the lowest
 * first: the sum, which is not read, and the counts of writers 0 to 7, of which each adds to its own alone. Writes the greatest
 * count of each writer, and their sum in front. A tombstone counts as zeros, and where all are tombstones the key is deleted; the
 * siblings are kept where a value has another length. Serves 64 siblings. */
#include "dvvstore.h"
#define SIBLINGS 64
#define WRITERS 8
#define LENGTH (8 * (1 + WRITERS))

u64 hook(const u8 *input, u64 used, u8 *output, u64 room)
{
    const struct head *head = (const struct head *)input;
    u64 counts[WRITERS] = {0}, values = 0, sum = 0;
#pragma unroll
    for (u64 i = 0; i < SIBLINGS; i++) {
        const struct row *row = row_at(input, i);
        if (i >= head->rows) continue;
        if (!(row->flags & IS_VALUE)) continue;
        if (row->length != LENGTH) return KEEP;
        const u64 *value = (const u64 *)value_at(input, row, LENGTH);
        values = 1;
#pragma unroll
        for (u64 w = 0; w < WRITERS; w++)
            if (value[1 + w] > counts[w]) counts[w] = value[1 + w];
    }
    if (!values) return DELETE;
    u64 *written = (u64 *)(output + 4);
#pragma unroll
    for (u64 w = 0; w < WRITERS; w++) {
        sum += counts[w];
        written[1 + w] = counts[w];
    }
    written[0] = sum;
    *(u32 *)output = LENGTH;
    return WRITE;
}

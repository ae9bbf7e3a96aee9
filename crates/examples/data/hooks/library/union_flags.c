/* resolver 65536 36: writes all flags that are set somewhere. A value is 32 bytes, a bit for each of 256 flags. A tombstone counts as
 * without flags, and where all are tombstones the key is deleted; the siblings are kept where a value has another length. Serves
 * 64 siblings. */
#include "dvvstore.h"
#define SIBLINGS 64
#define WORDS 4
#define LENGTH (8 * WORDS)

u64 hook(const u8 *input, u64 used, u8 *output, u64 room)
{
    const struct head *head = (const struct head *)input;
    u64 flags[WORDS] = {0}, values = 0;
#pragma unroll
    for (u64 i = 0; i < SIBLINGS; i++) {
        const struct row *row = row_at(input, i);
        if (i >= head->rows) continue;
        if (!(row->flags & IS_VALUE)) continue;
        if (row->length != LENGTH) return KEEP;
        const u64 *value = (const u64 *)value_at(input, row, LENGTH);
        values = 1;
#pragma unroll
        for (u64 w = 0; w < WORDS; w++) flags[w] |= value[w];
    }
    if (!values) return DELETE;
    copy(output + 4, flags, LENGTH);
    *(u32 *)output = LENGTH;
    return WRITE;
}

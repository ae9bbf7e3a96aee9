/* resolver 65536 132: a profile, of each field the latest. A value is 128 bytes, four fields: a stamp of eight bytes, the lowest first, and
 * 24 bytes of text. Writes of each field the one with the greatest stamp, of equal ones that of the first sibling. A tombstone has
 * no fields, and where all are tombstones the key is deleted; the siblings are kept where a value has another length. Serves 64
 * siblings. */
#include "dvvstore.h"
#define SIBLINGS 64
#define FIELDS 4
#define FIELD 32
#define LENGTH (FIELDS * FIELD)

u64 hook(const u8 *input, u64 used, u8 *output, u64 room)
{
    const struct head *head = (const struct head *)input;
    u64 stamps[FIELDS] = {0}, places[FIELDS] = {0};
#pragma unroll
    for (u64 i = 0; i < SIBLINGS; i++) {
        const struct row *row = row_at(input, i);
        if (i >= head->rows) continue;
        if (!(row->flags & IS_VALUE)) continue;
        if (row->length != LENGTH) return KEEP;
        const u8 *value = value_at(input, row, LENGTH);
#pragma unroll
        for (u64 f = 0; f < FIELDS; f++) {
            u64 stamp = *(const u64 *)(value + FIELD * f);
            if (!places[f] || stamp > stamps[f]) { stamps[f] = stamp; places[f] = row->offset + FIELD * f; }
        }
    }
    if (!places[0]) return DELETE;
#pragma unroll
    for (u64 f = 0; f < FIELDS; f++) copy_at(output, 4 + FIELD * f, input, places[f], FIELD);
    *(u32 *)output = LENGTH;
    return WRITE;
}

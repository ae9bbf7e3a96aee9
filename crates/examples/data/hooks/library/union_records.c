/* resolver 65536 65536: a set of records of eight bytes. Writes those of all siblings, in their order, each once. Keeps the siblings
 * where a value isn't whole records, and where they have over 72 records together; an empty value and a tombstone have none,
 * and where all are tombstones the key is deleted. Serves 64 siblings. */
#include "dvvstore.h"
#define SIBLINGS 64
#define RECORDS 72
#define RECORD 8
#define HALVES 0x0f0f0f0f0f0f0f0fULL
#define HIGH_BITS 0x8080808080808080ULL
#define PLACES 4096 /* in the output, behind what may be written */

u64 hook(const u8 *input, u64 used, u8 *output, u64 room)
{
    const struct head *head = (const struct head *)input;
    u64 values = 0, all = 0, at = row_at(input, 0)->offset, length = 0;
#pragma unroll
    for (u64 i = 0; i < SIBLINGS; i++) {
        const struct row *row = row_at(input, i);
        if (i >= head->rows) continue;
        values |= row->flags;
        all |= row->length;
    }
    if (!(values & IS_VALUE)) return DELETE;
    if (all % RECORD) return KEEP;
    /* Values stand one behind the other. What was written is looked for where it stands in halves of bytes, of which the second
     * have a bit more: so a record is only found where it begins. */
#pragma unroll
    for (u64 i = 0; i < RECORDS; i++) {
        if (at >= used) continue;
        u64 record = number_at(input, at, RECORD), halves[2] = {record & HALVES, (record >> 4 & HALVES) | HIGH_BITS};
        at += RECORD;
        u64 looked = at_most(2 * length, OUTPUT_WINDOW - PLACES - 16);
        if (find(output + PLACES, looked, halves, 16)) continue;
        copy(output + PLACES + looked, halves, 16);
        *(u64 *)output_at(output, 4 + length, RECORD) = record;
        length += RECORD;
    }
    if (at < used) return KEEP;
    *(u32 *)output = length;
    return WRITE;
}

/* resolver 65536 65536: the lines of all siblings. A value is lines, each ended by a line feed. Writes the first value as it stands, and
 * behind it those lines of the others, in their order, that aren't there yet. Keeps the siblings where a value ends otherwise, and
 * where the siblings behind the first have over 44 lines together; an empty value and a tombstone have none, and where all are
 * tombstones the key is deleted. Serves 64 siblings. */
#include "dvvstore.h"
#define SIBLINGS 64
#define LINES 44
#define END '\n' /* of a line */

u64 hook(const u8 *input, u64 used, u8 *output, u64 room)
{
    const struct head *head = (const struct head *)input;
    const struct row *first = row_at(input, 0);
    u64 values = 0;
    u8 end[1] = {END};
#pragma unroll
    for (u64 i = 0; i < SIBLINGS; i++) {
        const struct row *row = row_at(input, i);
        if (i >= head->rows) continue;
        values |= row->flags;
        if (row->length == 0) continue;
        if (number_at(input, (u64)row->offset + row->length - 1, 1) != END) return KEEP;
    }
    if (!(values & IS_VALUE)) return DELETE;
    /* Values stand one behind the other, so the lines of the others are one text, up to the end of what is used. */
    u64 at = (u64)first->offset + first->length, length = first->length;
    if (!copy_at(output, 4, input, first->offset, length)) return KEEP;
    /* A line is looked for with the ends before and behind it: that before the first line stands in the length's place. */
    output[3] = END;
#pragma unroll
    for (u64 i = 0; i < LINES; i++) {
        if (at >= used) continue;
        u64 line = find_at(input, at, used - at, end, 1);
        u64 before = at - 1, with = line + 1, text = at_most(length + 1, OUTPUT_WINDOW - 3);
        if (!LIES_IN(before, with, INPUT_WINDOW)) return KEEP;
        if (!find(output + 3, text, input + before, with)) {
            if (!copy_at(output, 4 + length, input, at, line)) return KEEP;
            length += line;
        }
        at += line;
    }
    if (at < used) return KEEP;
    *(u32 *)output = length;
    return WRITE;
}

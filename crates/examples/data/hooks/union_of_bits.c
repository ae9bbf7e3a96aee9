/* Resolver, for sets of at most 64 members: a value is eight bytes, a bit for each member. Writes the union of up to 64 siblings.
 * Keeps them where one is a tombstone or has another length. */
#include "dvvstore.h"
#define SIBLINGS 64
#define SET 8

u64 hook(const u8 *input, u64 used, u8 *output, u64 room)
{
    const struct head *head = (const struct head *)input;
    u64 members = 0;
#pragma unroll
    for (u64 i = 0; i < SIBLINGS; i++) {
        const struct row *row = row_at(input, i);
        if (i < head->rows) {
            if (!(row->flags & IS_VALUE) || row->length != SET) return KEEP;
            members |= number_at(input, row->offset, SET);
        }
    }
    *(u64 *)(output + 4) = members;
    *(u32 *)output = SET;
    return WRITE;
}

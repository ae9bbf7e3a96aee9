/* Resolver: where one of the siblings is a tombstone the key is deleted, else the siblings are kept. */
#include "dvvstore.h"
#define SIBLINGS 64 /* a resolver is never shown more */

u64 hook(const u8 *input, u64 used, u8 *output, u64 room)
{
    const struct head *head = (const struct head *)input;
#pragma unroll
    for (u64 i = 0; i < SIBLINGS; i++) {
        if (i < head->rows && !(row_at(input, i)->flags & IS_VALUE)) return DELETE;
    }
    return KEEP;
}

/* pre-commit 65536 0: refuses values that are none of "open", "paid", "sent" and "returned" with code 1. A delete passes. */
#include "dvvstore.h"
#define IS(...) is(input, new, (u8[]){__VA_ARGS__}, sizeof (u8[]){__VA_ARGS__})

static inline __attribute__((always_inline)) u64 is(const u8 *input, const struct row *row, const u8 *word, u64 length)
{
    if (row->length != length) return 0;
    return same_at(input, row->offset, word, length);
}

u64 hook(const u8 *input, u64 used, u8 *output, u64 room)
{
    const struct row *new = row_at(input, 0);
    if (!(new->flags & IS_VALUE)) return PASS;
    if (IS('o', 'p', 'e', 'n')) return PASS;
    if (IS('p', 'a', 'i', 'd')) return PASS;
    if (IS('s', 'e', 'n', 't')) return PASS;
    if (IS('r', 'e', 't', 'u', 'r', 'n', 'e', 'd')) return PASS;
    return REJECT(1);
}

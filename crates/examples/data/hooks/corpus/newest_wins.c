/* resolver 65536 0: the newest sibling is taken */
#include "dvvstore.h"

u64 hook(const u8 *input, u64 used, u8 *output, u64 room)
{
    const struct head *head = (const struct head *)input;
    const struct row *rows = (const struct row *)(input + HEAD_SIZE);
    (void)rows;
    u64 i = newest(input, used);
    return i < head->rows ? TAKE(i) : KEEP;
}

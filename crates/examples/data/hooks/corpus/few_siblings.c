/* pre-commit 65536 0: no write beside more than 8 siblings */
#include "dvvstore.h"

u64 hook(const u8 *input, u64 used, u8 *output, u64 room)
{
    const struct head *head = (const struct head *)input;
    const struct row *rows = (const struct row *)(input + HEAD_SIZE);
    (void)rows;
    return head->rows > 9 ? REJECT(1) : PASS;
}

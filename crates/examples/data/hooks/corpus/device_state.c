/* resolver 65536 0: of device states with a sequence number of 4 bytes in front the greatest is taken, older tombstones are passed over */
#include "dvvstore.h"

u64 hook(const u8 *input, u64 used, u8 *output, u64 room)
{
    const struct head *head = (const struct head *)input;
    const struct row *rows = (const struct row *)(input + HEAD_SIZE);
    u32 most = 0;
    int best = -1;
    if (head->rows > 8) return KEEP;
#pragma unroll
    for (int i = 0; i < 8; i++) {
        if (i >= head->rows) continue;
        const struct row *row = &rows[i];
        if (!(row->flags & IS_VALUE) || row->length < 4) continue;
        if (row->offset + 4 > used) continue;
        u32 seq = *(const u32 *)(input + row->offset);
        if (best < 0 || seq > most) {
            most = seq;
            best = i;
        }
    }
    return best < 0 ? KEEP : TAKE(best);
}

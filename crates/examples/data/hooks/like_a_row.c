/* Resolver, for the script of largest_counter alone: writes the value 9 with bytes behind it that read as a row, which
 * says that a value of one byte stands at offset 64. With two siblings the first value begins there, where a third row
 * would. */
#include "dvvstore.h"

u64 hook(const u8 *input, u64 used, u8 *output, u64 room)
{
    *(u32 *)output = ROW_SIZE;
    *(u64 *)(output + 4) = '9';
    *(u64 *)(output + 12) = 0;
    *(u32 *)(output + 20) = HEAD_SIZE + 2 * ROW_SIZE;
    *(u32 *)(output + 24) = 1;
    return WRITE;
}

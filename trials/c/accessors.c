/* plain 4096 4096: what each accessor of dvvstore.h comes to, of an offset, a length and a place that the input begins with. The copy is
 * made first, and what the others gave stands behind one another from the output's first byte on. */
#include "dvvstore.h"

u64 accessors(const u8 *input, u64 used, u8 *output, u64 room)
{
    u64 offset = number_at(input, 0, 8), length = number_at(input, 8, 8), place = number_at(input, 16, 8);
    u64 is_copied = copy_at(output, place, input, offset, length);
    u64 *told = (u64 *)output;
    told[0] = is_copied;
    told[1] = at_most(offset, 1000);
    told[2] = (const u8 *)row_at(input, offset) - input;
    told[3] = bytes_at(input, offset, 100) - input;
    told[4] = output_at(output, offset, 100) - output;
    told[5] = number_at(input, offset, 1);
    told[6] = number_at(input, offset, 2);
    told[7] = number_at(input, offset, 4);
    told[8] = number_at(input, offset, 8);
    told[9] = decimal_at(input, offset, length);
    told[10] = same_at(input, offset, input + 32, at_most(length, 4000));
    told[11] = find_at(input, offset, length, input + 32, 2);
    told[12] = decimal_at(input, offset, 3);
    told[13] = same_at(input, offset, input + 32, 5);
    const struct row row = {.offset = offset};
    told[14] = value_at(input, &row, 100) - input;
    u64 array[2] = {0};
    told[15] = load_at(array, sizeof array, input, offset, length);
    told[16] = array[0];
    told[17] = array[1];
    const struct row one = {.offset = offset, .length = length}, other = {.offset = place, .length = length};
    const struct row half = {.offset = place, .length = (u32)length / 2};
    told[18] = same_values(input, &one, &other);
    told[19] = order_values(input, &one, &half);
    return 0;
}

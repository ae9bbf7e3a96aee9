/* Branches: the order of two texts of up to 32 bytes, which end before a zero: 0 where the first is before the second, 1 where they are
 * equal, 2 where it is after it, and above that how many bytes at the front are equal. */
#include "types.h"
#define LENGTH 32
#define BEFORE 0
#define EQUAL 1
#define AFTER 2

u64 branches(const u8 *input)
{
    const u8 *first = input, *second = input + LENGTH;
#pragma unroll
    for (u32 i = 0; i < LENGTH; i++) {
        if (first[i] < second[i]) return BEFORE | i << 8;
        if (first[i] > second[i]) return AFTER | i << 8;
        if (first[i] == 0) return EQUAL | i << 8;
    }
    return EQUAL | LENGTH << 8;
}

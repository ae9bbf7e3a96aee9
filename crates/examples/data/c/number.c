/* A reader of numbers: what up to 16 decimal digits at the front spell, behind a minus where there is one. */
#include "types.h"
#define DIGITS 16

u64 number(const u8 *input)
{
    u64 is_negative = input[0] == '-', value = 0;
    const u8 *digits = input + is_negative;
#pragma unroll
    for (u32 i = 0; i < DIGITS; i++) {
        u64 digit = (u64)digits[i] - '0';
        if (digit > 9) return is_negative ? -value : value;
        value = value * 10 + digit;
    }
    return is_negative ? -value : value;
}

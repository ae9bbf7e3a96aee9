/* Division: the last five decimal digits of each of the first eight half words in turned order, each raised first by what the ones before it
 * came to modulo the ninth, or the odd number above it. */
#include "types.h"
#define NUMBERS 8
#define DIGITS 5

u64 division(const u8 *input)
{
    const u16 *numbers = (const u16 *)input;
    u64 modulus = numbers[NUMBERS] | 1, answer = 0;
#pragma unroll
    for (u32 i = 0; i < NUMBERS; i++) {
        u64 rest = numbers[i] + answer, turned = 0;
#pragma unroll
        for (u32 digit = 0; digit < DIGITS; digit++) {
            turned = turned * 10 + rest % 10;
            rest /= 10;
        }
        answer = turned % modulus;
    }
    return answer;
}

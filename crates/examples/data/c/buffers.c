/* Buffers on the stack: the first 64 bytes are put there in turned order, a double word at a time, and read again a byte at a time; their
 * sums so far go into a second buffer, which is folded from its end. */
#include "types.h"
#define LENGTH 64
#define WORDS (LENGTH / 8)

u64 buffers(const u8 *input)
{
    const u64 *words = (const u64 *)input;
    volatile union { u64 words[WORDS]; u8 bytes[LENGTH]; } turned;
    volatile u32 sums[LENGTH];
    u64 sum = 0, answer = 0;
#pragma unroll
    for (u32 i = 0; i < WORDS; i++) {
        turned.words[WORDS - 1 - i] = __builtin_bswap64(words[i]);
    }
#pragma unroll
    for (u32 i = 0; i < LENGTH; i++) {
        sum += turned.bytes[i];
        sums[i] = sum;
    }
#pragma unroll
    for (u32 i = 0; i < LENGTH; i++) {
        answer = answer * 31 ^ sums[LENGTH - 1 - i];
    }
    return answer;
}

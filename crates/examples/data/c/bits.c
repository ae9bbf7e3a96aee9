/* Bit tricks on the first four double words: how many bits are set, the word turned round, the least power of two that is no less, and the
 * place of the lowest bit, each folded into the answer. */
#include "types.h"
#define WORDS 4

static inline __attribute__((always_inline)) u64 count(u64 x)
{
    x -= x >> 1 & 0x5555555555555555;
    x = (x & 0x3333333333333333) + (x >> 2 & 0x3333333333333333);
    x = (x + (x >> 4)) & 0x0f0f0f0f0f0f0f0f;
    return x * 0x0101010101010101 >> 56;
}

static inline __attribute__((always_inline)) u64 turned(u64 x)
{
    x = (x >> 1 & 0x5555555555555555) | (x & 0x5555555555555555) << 1;
    x = (x >> 2 & 0x3333333333333333) | (x & 0x3333333333333333) << 2;
    x = (x >> 4 & 0x0f0f0f0f0f0f0f0f) | (x & 0x0f0f0f0f0f0f0f0f) << 4;
    return __builtin_bswap64(x);
}

static inline __attribute__((always_inline)) u64 power_from(u64 x)
{
    x--;
    x |= x >> 1;
    x |= x >> 2;
    x |= x >> 4;
    x |= x >> 8;
    x |= x >> 16;
    x |= x >> 32;
    return x + 1;
}

u64 bits(const u8 *input)
{
    const u64 *words = (const u64 *)input;
    u64 answer = 0;
#pragma unroll
    for (u32 i = 0; i < WORDS; i++) {
        u64 x = words[i];
        answer = answer * 31 + count(x);
        answer ^= turned(x);
        answer += power_from(x);
        answer = answer * 31 + count((x & -x) - 1);
    }
    return answer;
}

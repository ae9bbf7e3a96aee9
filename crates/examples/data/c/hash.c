/* A hash: FNV-1a in 64 bits of the first 32 bytes. */
#include "types.h"
#define LENGTH 32

u64 hash(const u8 *input)
{
    u64 hash = 0xcbf29ce484222325;
#pragma unroll
    for (u32 i = 0; i < LENGTH; i++) {
        hash = (hash ^ input[i]) * 0x100000001b3;
    }
    return hash;
}

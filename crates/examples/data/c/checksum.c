/* A checksum: CRC-32, as of Ethernet and zip files, of the first 8 bytes, bit by bit. */
#include "types.h"
#define LENGTH 8
#define POLYNOMIAL 0xedb88320

u64 checksum(const u8 *input)
{
    u64 rest = 0xffffffff;
#pragma unroll
    for (u32 i = 0; i < LENGTH; i++) {
        rest ^= input[i];
#pragma unroll
        for (u32 bit = 0; bit < 8; bit++) {
            rest = rest >> 1 ^ (POLYNOMIAL & -(rest & 1));
        }
    }
    return rest ^ 0xffffffff;
}

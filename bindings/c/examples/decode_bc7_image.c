/* Decodes a BC7 picture of 6 by 2 texels, a block of mode 4 and a reserved one, and prints it. */
#include <stdio.h>

#include "stallbrook.h"

int main(void)
{
    const uint8_t blocks[32] = {
        0x50, 0x60, 0x91, 0xA7, 0xB3, 0x15, 0x32, 0x93,
        0xBD, 0x55, 0x6E, 0x39, 0x28, 0x53, 0x8A, 0xDC, /* then sixteen zeros */
    };
    uint8_t texels[4 * 6 * 2];
    uint64_t tally[STALLBROOK_TALLY]; /* how many blocks have a fault, index and fault of the first */
    int refused = stallbrook_bc7_decode_image(6, 2, blocks, sizeof blocks, texels, sizeof texels, tally, STALLBROOK_TALLY);
    printf("refused %d, faulty %d, first %d, fault %d\n", refused, (int)tally[0], (int)tally[1], (int)tally[2]);
    for (int i = 0; i < 12; i++)
        printf("(%d %d %d %d)%c", texels[4 * i], texels[4 * i + 1], texels[4 * i + 2], texels[4 * i + 3], i % 6 < 5 ? ' ' : '\n');
    return refused;
}

/* Decodes a volume of 3 by 3 by 6 texels, two blocks of 3x3x3 behind each other of which the second is damaged; prints how many blocks are bad and
 * the first of them, and the greys of the first block's layers. */
#include <stdio.h>

#include "stallbrook.h"

int main(void) {
    const uint8_t blocks[32] = {0x13, 0, 0, 0xfe, 1, 0, 0, 0, 0, 0, 0, 0, 0, 0x5f, 0x63, 0x11}; /* then sixteen zeros */
    uint8_t texels[4 * 3 * 3 * 6];
    uint64_t tally[STALLBROOK_TALLY]; /* how many blocks are bad, the first one and its fault */
    if (stallbrook_astc_volume_blocks(STALLBROOK_3X3X3, 3, 3, 6) != 2 || stallbrook_astc_volume_numbers(3, 3, 6) != sizeof texels)
        return 1;
    uint8_t refused =
        stallbrook_astc_decode_volume_srgb8(STALLBROOK_3X3X3, 3, 3, 6, blocks, sizeof blocks, texels, sizeof texels, tally, STALLBROOK_TALLY);
    if (refused != STALLBROOK_DONE)
        return puts(stallbrook_text(refused)), 1;
    printf("%d of 2 blocks are bad, first block %d: %s\n", (int)tally[STALLBROOK_TALLY_FAULTY], (int)tally[STALLBROOK_TALLY_FIRST],
        stallbrook_text((uint8_t)tally[STALLBROOK_TALLY_FAULT]));
    for (int z = 0; z < 3; z++)
        for (int y = 0; y < 3; y++)
            for (int x = 0; x < 3; x++)
                printf("%3d%s", texels[4 * ((z * 3 + y) * 3 + x)], x < 2 ? " " : y < 2 ? "  |  " : "\n");
    return 0;
}

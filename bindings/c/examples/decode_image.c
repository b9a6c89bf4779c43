/* Decodes an image of 8 by 4 texels, two blocks of 4x4 of which the second is damaged; prints which blocks are bad, and the top row. */
#include <stdio.h>

#include "stallbrook.h"

int main(void) {
    const uint8_t blocks[32] = {0x42, 0, 0, 0xfe, 1, 0, 0, 0, 0, 0, 0, 0, 0, 0, 0, 0x80}; /* then sixteen zeros */
    uint8_t texels[4 * 8 * 4], faults[2];
    uint64_t tally[STALLBROOK_TALLY]; /* how many blocks are bad, the first one and its fault */
    uint8_t refused = stallbrook_astc_decode_image_srgb8(STALLBROOK_4X4, 8, 4, blocks, 32, texels, sizeof texels, tally, STALLBROOK_TALLY);
    if (refused == STALLBROOK_DONE)
        refused = stallbrook_astc_image_faults(STALLBROOK_4X4, STALLBROOK_SRGB8, 8, 4, blocks, 32, faults, 2, tally, STALLBROOK_TALLY);
    if (refused != STALLBROOK_DONE)
        return puts(stallbrook_text(refused)), 1;
    for (int i = 0; i < 2; i++)
        if (faults[i] != 0)
            printf("block %d is bad: %s\n", i, stallbrook_text(faults[i]));
    for (int x = 0; x < 8; x++)
        printf("(%d %d %d %d)%c", texels[4 * x], texels[4 * x + 1], texels[4 * x + 2], texels[4 * x + 3], x < 7 ? ' ' : '\n');
    return 0;
}

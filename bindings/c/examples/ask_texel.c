/* One texel of an image, no block unpacked: 01's program block beside a block of zeros, whose mode is reserved. */
#include <stdio.h>

#include "stallbrook.h"

int main(void) {
    static const uint8_t blocks[32] = {0x42, 0, 0, 0xFE, 1, 0, 0, 0, 0, 0, 0, 0, 0, 0, 0, 0x80};
    static const uint32_t places[][2] = {{0, 0}, {1, 0}, {7, 3}, {8, 0}};
    printf("view refused by %d\n", stallbrook_astc_view_refusal(STALLBROOK_4X4, 8, 4, blocks, sizeof blocks));
    for (size_t i = 0; i < sizeof places / sizeof *places; i++) {
        uint32_t x = places[i][0], y = places[i][1];
        uint8_t texel[4];
        int number = stallbrook_astc_texel_srgb8(STALLBROOK_4X4, 8, 4, blocks, sizeof blocks, x, y, texel, 4);
        printf("%u %u: told %d, texel %d %d %d %d\n", (unsigned)x, (unsigned)y, number, texel[0], texel[1], texel[2], texel[3]);
    }
    return 0;
}

/* Decodes one block of 4x4 texels and prints it as the program `unpack` does. */
#include <stdio.h>

#include "stallbrook.h"

int main(void) {
    const uint8_t block[16] = {0x42, 0x00, 0x00, 0xfe, 0x01, 0, 0, 0, 0, 0, 0, 0, 0, 0, 0, 0x80};
    uint8_t out[4 * 16];
    int answer = stallbrook_astc_decode_block_srgb8(STALLBROOK_4X4, block, sizeof block, out, sizeof out);
    if (answer == 1 || answer == 4 || answer == 5) {
        printf("refused %d\n", answer);
        return 1;
    }
    printf("fault %d\n", answer);
    for (int i = 0; i < 16; i++) {
        const uint8_t *texel = out + 4 * i;
        printf("%d %d %d %d %d %d\n", i % 4, i / 4, texel[0], texel[1], texel[2], texel[3]);
    }
    return 0;
}

/* Decodes a PVRTC1 image of one word, black and white with punch-through, and prints a line "x y r g b a" for each texel. */
#include <stdio.h>

#include "stallbrook.h"

int main(void) {
    const uint8_t word[8] = {0xe4, 0xe4, 0xe4, 0xe4, 0x01, 0x80, 0xff, 0xff};
    uint8_t out[4 * 16];
    int answer = stallbrook_pvrtc_decode_image(4, 4, word, sizeof word, out, sizeof out);
    if (answer != 0) {
        printf("refused %d\n", answer);
        return 1;
    }
    for (int i = 0; i < 16; i++) {
        const uint8_t *texel = out + 4 * i;
        printf("%d %d %d %d %d %d\n", i % 4, i / 4, texel[0], texel[1], texel[2], texel[3]);
    }
    return 0;
}

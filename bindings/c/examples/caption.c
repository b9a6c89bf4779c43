/* The best grey caption of sixteen wanted greys between black and white, and what it shows. Prints the block's bytes and the greys. */
#include <stdio.h>

#include "stallbrook.h"

int main(void) {
    const uint8_t wanted[16] = {80}; /* the first texel; all others want black */
    uint8_t block[16], texels[64];
    uint8_t number = stallbrook_astc_caption_block(0, 255, wanted, sizeof wanted, block, sizeof block);
    if (number != 0) {
        printf("refused by %u\n", number);
        return 1;
    }
    printf("block");
    for (int i = 0; i < 16; i++) {
        printf(" %u", block[i]);
    }
    number = stallbrook_astc_decode_block_srgb8(STALLBROOK_4X4, block, sizeof block, texels, sizeof texels);
    if (number != 0) {
        printf("\nfault %u\n", number);
        return 1;
    }
    printf("\nshows");
    for (int i = 0; i < 16; i++) {
        printf(" %u", texels[4 * i]);
    }
    printf("\n");
    return 0;
}

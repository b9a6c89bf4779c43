/* Decodes an HDR block to half floats and prints them as numbers; the other kinds tell its fault. Then its symbolic block's HDR mark. */
#include <stdio.h>

#include "stallbrook.h"

/* What a half float is worth, NaN and infinities left out. */
static double value(uint16_t pattern) {
    int exponent = pattern >> 10 & 31, mantissa = pattern & 1023;
    double size = exponent == 0 ? mantissa / 16777216.0 : (1024 + mantissa) / 1024.0 * (exponent < 15 ? 1.0 / (1 << (15 - exponent)) : 1 << (exponent - 15));
    return pattern >> 15 ? -size : size;
}

int main(void) {
    /* luminance from 0 to 63488, the first texel a third of the way in steps of brightness */
    const uint8_t block[16] = {0x42, 0x40, 0x00, 0xfe, 0x01, 0, 0, 0, 0, 0, 0, 0, 0, 0, 0, 0x80};
    uint16_t texels[4 * 16];
    int answer = stallbrook_astc_decode_block_float16(STALLBROOK_4X4, block, sizeof block, texels, 4 * 16);
    printf("float16 %d\n", answer);
    for (int k = 0; k < 2; k++)
        for (int c = 0; c < 4; c++)
            printf("%04x %g%c", texels[4 * k + c], value(texels[4 * k + c]), c < 3 ? ' ' : '\n');
    answer = stallbrook_astc_decode_block_unorm16(STALLBROOK_4X4, block, sizeof block, texels, 4 * 16);
    printf("unorm16 %d: %d %d %d %d\n", answer, texels[0], texels[1], texels[2], texels[3]);

    uint16_t numbers[STALLBROOK_SYMBOLIC], spare[STALLBROOK_SPARE];
    uint8_t written[16];
    answer = stallbrook_astc_read_symbolic(STALLBROOK_4X4, block, sizeof block, numbers, STALLBROOK_SYMBOLIC, spare, STALLBROOK_SPARE);
    printf("read %d: mode %d, HDR mark %d\n", answer, numbers[STALLBROOK_SYMBOLIC_MODES], numbers[STALLBROOK_SYMBOLIC_HDR]);
    numbers[STALLBROOK_SYMBOLIC_MODES] = 0; /* an LDR mode, which the mark does not fit */
    answer = stallbrook_astc_write_symbolic(STALLBROOK_4X4, numbers, STALLBROOK_SYMBOLIC, written, sizeof written);
    printf("write %d\n", answer);
    return 0;
}

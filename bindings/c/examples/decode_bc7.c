/* Shows a BC7 block of mode 4, reads its sheet and writes it again. */
#include <stdio.h>
#include <string.h>

#include "stallbrook.h"

int main(void)
{
    const uint8_t block[16] = {
        0x50, 0x60, 0x91, 0xA7, 0xB3, 0x15, 0x32, 0x93,
        0xBD, 0x55, 0x6E, 0x39, 0x28, 0x53, 0x8A, 0xDC,
    };
    uint8_t texels[64], sheet[STALLBROOK_BC7_SHEET], again[16];
    printf("fault %d\n", stallbrook_bc7_decode_block(block, sizeof block, texels, sizeof texels));
    for (int i = 0; i < 16; i++)
        printf("%d %d %d %d %d %d\n", i % 4, i / 4, texels[4 * i], texels[4 * i + 1], texels[4 * i + 2], texels[4 * i + 3]);
    int told = stallbrook_bc7_read_symbolic(block, sizeof block, sheet, sizeof sheet);
    printf("read %d: mode %d, rotation %d\n", told, sheet[STALLBROOK_BC7_MODE], sheet[STALLBROOK_BC7_ROTATION]);
    told = stallbrook_bc7_write_symbolic(sheet, sizeof sheet, again, sizeof again);
    printf("written %d: %s\n", told, memcmp(block, again, sizeof block) == 0 ? "the same" : "another");
    return 0;
}

/* Reads a block's symbolic block and its spare bits, changes one endpoint number, and writes the block anew. */
#include <stdio.h>

#include "stallbrook.h"

int main(void) {
    const uint8_t block[16] = {0x42, 0x00, 0x00, 0xfe, 0x01, 0, 0, 0, 0, 0, 0, 0, 0, 0, 0, 0x80};
    uint16_t numbers[STALLBROOK_SYMBOLIC];
    uint16_t spare[STALLBROOK_SPARE]; /* how many bits no field has, and whether any is set */
    uint8_t written[16];
    int answer = stallbrook_astc_read_symbolic(STALLBROOK_4X4, block, sizeof block, numbers, STALLBROOK_SYMBOLIC, spare, STALLBROOK_SPARE);
    printf("read %d\n", answer);
    for (int i = 0; i < STALLBROOK_SYMBOLIC; i++) {
        if (numbers[i] != 0) {
            printf("%d %d\n", i, numbers[i]);
        }
    }
    printf("spare bits %d, set %d\n", spare[STALLBROOK_SPARE_COUNT], spare[STALLBROOK_SPARE_SET]);
    /* the first endpoint number, which may be 0 to 255 */
    numbers[STALLBROOK_SYMBOLIC_ENDPOINTS] = 200;
    answer = stallbrook_astc_write_symbolic(STALLBROOK_4X4, numbers, STALLBROOK_SYMBOLIC, written, sizeof written);
    printf("write %d:", answer);
    for (int i = 0; i < 16; i++) {
        printf(" %02x", written[i]);
    }
    numbers[STALLBROOK_SYMBOLIC_ENDPOINTS] = 256;
    answer = stallbrook_astc_write_symbolic(STALLBROOK_4X4, numbers, STALLBROOK_SYMBOLIC, written, sizeof written);
    printf("\nwrite %d:", answer);
    for (int i = 0; i < 16; i++) {
        printf(" %02x", written[i]);
    }
    answer = stallbrook_astc_write_symbolic(STALLBROOK_4X4, numbers, STALLBROOK_SYMBOLIC - 1, written, sizeof written);
    printf("\nwrite %d\n", answer);
    return 0;
}

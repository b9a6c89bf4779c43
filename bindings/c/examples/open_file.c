/* Writes an .astc file of one block into memory, opens it as a file of the usual encoder is opened, and decodes it. */
#include <stdio.h>
#include <string.h>

#include "stallbrook.h"

int main(void) {
    const uint8_t block[16] = {0x42, 0x00, 0x00, 0xfe, 0x01, 0, 0, 0, 0, 0, 0, 0, 0, 0, 0, 0x80};
    uint8_t file[32];
    int answer = stallbrook_astc_write_header(STALLBROOK_4X4, 3, 2, file, STALLBROOK_FILE_HEADER);
    memcpy(file + 16, block, sizeof block);
    printf("write %d:", answer);
    for (int i = 0; i < 16; i++)
        printf(" %02X", file[i]);
    printf("\n");

    uint32_t header[STALLBROOK_HEADER]; /* footprint, width, height; the blocks begin at byte 16 */
    answer = stallbrook_astc_read_header(file, sizeof file, header, STALLBROOK_HEADER);
    printf("read %d: footprint %d, %d by %d\n", answer, (int)header[0], (int)header[1], (int)header[2]);

    uint8_t texels[4 * 3 * 2];
    uint64_t tally[STALLBROOK_TALLY];
    answer = stallbrook_astc_decode_file_srgb8(file, sizeof file, texels, sizeof texels, tally, STALLBROOK_TALLY);
    printf("decode %d: faulty %d, first texel %d %d %d %d\n", answer, (int)tally[0], texels[0], texels[1], texels[2], texels[3]);

    answer = stallbrook_astc_read_header(file, sizeof file - 1, header, STALLBROOK_HEADER); /* cut short */
    printf("read %d: footprint %d, %d by %d\n", answer, (int)header[0], (int)header[1], (int)header[2]);
    return 0;
}

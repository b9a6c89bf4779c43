/* Writes a clip of one frame, feeds it in pieces of twenty bytes as a radio would, and decodes each block as it is handed out. */
#include <stdio.h>

#include "stallbrook.h"

int main(void) {
    /* an image of 5 by 4 texels has two blocks at 4x4 */
    const uint8_t blocks[32] = {0x42, 0x00, 0x00, 0xfe, 0x01, 0, 0, 0, 0, 0, 0, 0, 0, 0, 0, 0x80,
        0xfc, 0xfd, 0xff, 0xff, 0xff, 0xff, 0xff, 0xff, 0x00, 0x10, 0x00, 0x20, 0x00, 0x30, 0xff, 0xff};
    uint8_t clip[1 + STALLBROOK_FRAME_HEADER + sizeof blocks] = {1};
    int answer = stallbrook_clip_write_frame(STALLBROOK_4X4, STALLBROOK_SRGB8, 5, 4, blocks, sizeof blocks, clip + 1, sizeof clip - 1);
    printf("write %d\n", answer);

    uint32_t state[STALLBROOK_CLIP_STATE];
    stallbrook_clip_start(state, STALLBROOK_CLIP_STATE);
    for (size_t at = 0; at < sizeof clip; at += 20) {
        const uint8_t *piece = clip + at;
        size_t left = sizeof clip - at < 20 ? sizeof clip - at : 20;
        while (left > 0) {
            uint8_t block[16], texels[64];
            uint64_t told[STALLBROOK_CLIP_TOLD];
            answer = stallbrook_clip_feed(state, STALLBROOK_CLIP_STATE, piece, left, block, sizeof block, told, STALLBROOK_CLIP_TOLD);
            if (answer != 0) {
                printf("refused %d\n", answer);
                return 1;
            }
            piece += told[STALLBROOK_TOLD_TAKEN];
            left -= told[STALLBROOK_TOLD_TAKEN];
            if (told[STALLBROOK_TOLD_HANDED] == 1) {
                int fault = stallbrook_astc_decode_block_srgb8((uint8_t)told[STALLBROOK_TOLD_FOOTPRINT], block, sizeof block, texels, sizeof texels);
                printf("frame %d block %d of %dx%d: fault %d, first texel %d %d %d %d\n", (int)told[2], (int)told[3], (int)told[6], (int)told[7],
                    fault, texels[0], texels[1], texels[2], texels[3]);
            }
        }
    }
    printf("end %d\n", stallbrook_clip_finish(state, STALLBROOK_CLIP_STATE));
    return 0;
}

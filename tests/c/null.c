/* Every list of every call as NULL with length 0: the call answers as for any list of a wrong length, or takes it where an empty list is right. */
#include <stdio.h>
#include <string.h>

#include "stallbrook.h"

static int wrong = 0;

static void answers(const char *call, int answer, int expected)
{
    if (answer != expected) {
        printf("%s answers %d, not %d\n", call, answer, expected);
        wrong = 1;
    }
}
#define ANSWERS(expected, call) answers(#call, call, expected)

int main(void)
{
    const uint8_t block[16] = {0x42, 0, 0, 0xfe, 1, 0, 0, 0, 0, 0, 0, 0, 0, 0, 0, 0x80};
    uint8_t bytes[64], file[32], written[16], bc7[STALLBROOK_BC7_SHEET] = {0}, wanted[16] = {0};
    uint16_t words[64], numbers[STALLBROOK_SYMBOLIC], spare[STALLBROOK_SPARE];
    uint64_t tally[STALLBROOK_TALLY], told[STALLBROOK_CLIP_TOLD];
    uint32_t state[STALLBROOK_CLIP_STATE], header[STALLBROOK_HEADER];

    ANSWERS(4, stallbrook_astc_decode_block_unorm16(0, NULL, 0, words, 64));
    ANSWERS(5, stallbrook_astc_decode_block_unorm16(0, block, 16, NULL, 0));
    ANSWERS(4, stallbrook_astc_decode_block_srgb8(0, NULL, 0, bytes, 64));
    ANSWERS(5, stallbrook_astc_decode_block_srgb8(0, block, 16, NULL, 0));
    ANSWERS(4, stallbrook_astc_decode_block_float16(0, NULL, 0, words, 64));
    ANSWERS(5, stallbrook_astc_decode_block_float16(0, block, 16, NULL, 0));

    ANSWERS(4, stallbrook_astc_decode_image_unorm16(0, 4, 4, NULL, 0, words, 64, tally, 3));
    ANSWERS(5, stallbrook_astc_decode_image_unorm16(0, 4, 4, block, 16, NULL, 0, tally, 3));
    ANSWERS(5, stallbrook_astc_decode_image_unorm16(0, 4, 4, block, 16, words, 64, NULL, 0));
    ANSWERS(4, stallbrook_astc_decode_image_srgb8(0, 4, 4, NULL, 0, bytes, 64, tally, 3));
    ANSWERS(5, stallbrook_astc_decode_image_srgb8(0, 4, 4, block, 16, NULL, 0, tally, 3));
    ANSWERS(5, stallbrook_astc_decode_image_srgb8(0, 4, 4, block, 16, bytes, 64, NULL, 0));
    ANSWERS(4, stallbrook_astc_decode_image_float16(0, 4, 4, NULL, 0, words, 64, tally, 3));
    ANSWERS(5, stallbrook_astc_decode_image_float16(0, 4, 4, block, 16, NULL, 0, tally, 3));
    ANSWERS(5, stallbrook_astc_decode_image_float16(0, 4, 4, block, 16, words, 64, NULL, 0));
    ANSWERS(3, stallbrook_astc_decode_image_srgb8(0, 0, 0, NULL, 0, NULL, 0, NULL, 0));

    ANSWERS(4, stallbrook_astc_decode_volume_unorm16(0, 4, 4, 1, NULL, 0, words, 64, tally, 3));
    ANSWERS(5, stallbrook_astc_decode_volume_unorm16(0, 4, 4, 1, block, 16, NULL, 0, tally, 3));
    ANSWERS(5, stallbrook_astc_decode_volume_unorm16(0, 4, 4, 1, block, 16, words, 64, NULL, 0));
    ANSWERS(4, stallbrook_astc_decode_volume_srgb8(0, 4, 4, 1, NULL, 0, bytes, 64, tally, 3));
    ANSWERS(5, stallbrook_astc_decode_volume_srgb8(0, 4, 4, 1, block, 16, NULL, 0, tally, 3));
    ANSWERS(5, stallbrook_astc_decode_volume_srgb8(0, 4, 4, 1, block, 16, bytes, 64, NULL, 0));
    ANSWERS(4, stallbrook_astc_decode_volume_float16(0, 4, 4, 1, NULL, 0, words, 64, tally, 3));
    ANSWERS(5, stallbrook_astc_decode_volume_float16(0, 4, 4, 1, block, 16, NULL, 0, tally, 3));
    ANSWERS(5, stallbrook_astc_decode_volume_float16(0, 4, 4, 1, block, 16, words, 64, NULL, 0));
    ANSWERS(3, stallbrook_astc_decode_volume_srgb8(23, 1, 1, 0, NULL, 0, NULL, 0, NULL, 0));
    ANSWERS(1, stallbrook_astc_decode_volume_srgb8(24, 1, 1, 0, NULL, 0, NULL, 0, NULL, 0));

    ANSWERS(4, stallbrook_astc_image_faults(0, 0, 4, 4, NULL, 0, bytes, 1, tally, 3));
    ANSWERS(5, stallbrook_astc_image_faults(0, 0, 4, 4, block, 16, NULL, 0, tally, 3));
    ANSWERS(5, stallbrook_astc_image_faults(0, 0, 4, 4, block, 16, bytes, 1, NULL, 0));
    ANSWERS(3, stallbrook_astc_image_faults(0, 2, 0, 0, NULL, 0, NULL, 0, NULL, 0));
    ANSWERS(2, stallbrook_astc_image_faults(0, 3, 0, 0, NULL, 0, NULL, 0, NULL, 0));
    ANSWERS(1, stallbrook_astc_image_faults(14, 3, 0, 0, NULL, 0, NULL, 0, NULL, 0));

    ANSWERS(4, stallbrook_astc_strict_decode_block_unorm16(0, NULL, 0, words, 64));
    ANSWERS(5, stallbrook_astc_strict_decode_block_unorm16(0, block, 16, NULL, 0));
    ANSWERS(4, stallbrook_astc_strict_decode_image_unorm16(0, 4, 4, NULL, 0, words, 64, tally, 3));
    ANSWERS(5, stallbrook_astc_strict_decode_image_unorm16(0, 4, 4, block, 16, NULL, 0, tally, 3));
    ANSWERS(5, stallbrook_astc_strict_decode_image_unorm16(0, 4, 4, block, 16, words, 64, NULL, 0));
    ANSWERS(4, stallbrook_astc_strict_decode_block_srgb8(0, NULL, 0, bytes, 64));
    ANSWERS(5, stallbrook_astc_strict_decode_block_srgb8(0, block, 16, NULL, 0));
    ANSWERS(4, stallbrook_astc_strict_decode_image_srgb8(0, 4, 4, NULL, 0, bytes, 64, tally, 3));
    ANSWERS(5, stallbrook_astc_strict_decode_image_srgb8(0, 4, 4, block, 16, NULL, 0, tally, 3));
    ANSWERS(5, stallbrook_astc_strict_decode_image_srgb8(0, 4, 4, block, 16, bytes, 64, NULL, 0));
    ANSWERS(4, stallbrook_astc_strict_decode_block_float16(0, NULL, 0, words, 64));
    ANSWERS(5, stallbrook_astc_strict_decode_block_float16(0, block, 16, NULL, 0));
    ANSWERS(4, stallbrook_astc_strict_decode_image_float16(0, 4, 4, NULL, 0, words, 64, tally, 3));
    ANSWERS(5, stallbrook_astc_strict_decode_image_float16(0, 4, 4, block, 16, NULL, 0, tally, 3));
    ANSWERS(5, stallbrook_astc_strict_decode_image_float16(0, 4, 4, block, 16, words, 64, NULL, 0));
    ANSWERS(4, stallbrook_astc_strict_decode_volume_unorm16(0, 4, 4, 1, NULL, 0, words, 64, tally, 3));
    ANSWERS(5, stallbrook_astc_strict_decode_volume_unorm16(0, 4, 4, 1, block, 16, NULL, 0, tally, 3));
    ANSWERS(5, stallbrook_astc_strict_decode_volume_unorm16(0, 4, 4, 1, block, 16, words, 64, NULL, 0));
    ANSWERS(4, stallbrook_astc_strict_decode_volume_srgb8(0, 4, 4, 1, NULL, 0, bytes, 64, tally, 3));
    ANSWERS(5, stallbrook_astc_strict_decode_volume_srgb8(0, 4, 4, 1, block, 16, NULL, 0, tally, 3));
    ANSWERS(5, stallbrook_astc_strict_decode_volume_srgb8(0, 4, 4, 1, block, 16, bytes, 64, NULL, 0));
    ANSWERS(4, stallbrook_astc_strict_decode_volume_float16(0, 4, 4, 1, NULL, 0, words, 64, tally, 3));
    ANSWERS(5, stallbrook_astc_strict_decode_volume_float16(0, 4, 4, 1, block, 16, NULL, 0, tally, 3));
    ANSWERS(5, stallbrook_astc_strict_decode_volume_float16(0, 4, 4, 1, block, 16, words, 64, NULL, 0));
    ANSWERS(4, stallbrook_astc_strict_image_faults(0, 0, 4, 4, NULL, 0, bytes, 1, tally, 3));
    ANSWERS(5, stallbrook_astc_strict_image_faults(0, 0, 4, 4, block, 16, NULL, 0, tally, 3));
    ANSWERS(5, stallbrook_astc_strict_image_faults(0, 0, 4, 4, block, 16, bytes, 1, NULL, 0));
    ANSWERS(3, stallbrook_astc_strict_image_faults(0, 2, 0, 0, NULL, 0, NULL, 0, NULL, 0));
    ANSWERS(2, stallbrook_astc_strict_image_faults(0, 3, 0, 0, NULL, 0, NULL, 0, NULL, 0));
    ANSWERS(1, stallbrook_astc_strict_image_faults(14, 3, 0, 0, NULL, 0, NULL, 0, NULL, 0));
    ANSWERS(4, stallbrook_astc_strict_read_symbolic(0, NULL, 0, numbers, STALLBROOK_SYMBOLIC, spare, STALLBROOK_SPARE));
    ANSWERS(5, stallbrook_astc_strict_read_symbolic(0, block, 16, NULL, 0, spare, STALLBROOK_SPARE));
    ANSWERS(5, stallbrook_astc_strict_read_symbolic(0, block, 16, numbers, STALLBROOK_SYMBOLIC, NULL, 0));
    ANSWERS(4, stallbrook_astc_canonical_block(0, NULL, 0, written, 16));
    ANSWERS(5, stallbrook_astc_canonical_block(0, block, 16, NULL, 0));
    ANSWERS(4, stallbrook_astc_canonical_image(0, 4, 4, NULL, 0, written, 16, tally, 3));
    ANSWERS(5, stallbrook_astc_canonical_image(0, 4, 4, block, 16, NULL, 0, tally, 3));
    ANSWERS(5, stallbrook_astc_canonical_image(0, 4, 4, block, 16, written, 16, NULL, 0));
    ANSWERS(4, stallbrook_astc_canonical_in_place(0, 4, 4, NULL, 0, tally, 3));
    ANSWERS(5, stallbrook_astc_canonical_in_place(0, 4, 4, written, 16, NULL, 0));

    ANSWERS(4, stallbrook_astc_view_refusal(0, 4, 4, NULL, 0));
    ANSWERS(44, stallbrook_astc_texel_unorm16(0, 4, 4, NULL, 0, 0, 0, words, 4));
    ANSWERS(5, stallbrook_astc_texel_unorm16(0, 4, 4, block, 16, 0, 0, NULL, 0));
    ANSWERS(44, stallbrook_astc_texel_srgb8(0, 4, 4, NULL, 0, 0, 0, bytes, 4));
    ANSWERS(5, stallbrook_astc_texel_srgb8(0, 4, 4, block, 16, 0, 0, NULL, 0));
    ANSWERS(44, stallbrook_astc_texel_float16(0, 4, 4, NULL, 0, 0, 0, words, 4));
    ANSWERS(5, stallbrook_astc_texel_float16(0, 4, 4, block, 16, 0, 0, NULL, 0));

    ANSWERS(4, stallbrook_astc_read_symbolic(0, NULL, 0, numbers, STALLBROOK_SYMBOLIC, spare, STALLBROOK_SPARE));
    ANSWERS(5, stallbrook_astc_read_symbolic(0, block, 16, NULL, 0, spare, STALLBROOK_SPARE));
    ANSWERS(5, stallbrook_astc_read_symbolic(0, block, 16, numbers, STALLBROOK_SYMBOLIC, NULL, 0));
    ANSWERS(0, stallbrook_astc_read_symbolic(0, block, 16, numbers, STALLBROOK_SYMBOLIC, spare, STALLBROOK_SPARE));
    ANSWERS(5, stallbrook_astc_write_symbolic(0, NULL, 0, written, 16));
    ANSWERS(4, stallbrook_astc_write_symbolic(0, numbers, STALLBROOK_SYMBOLIC, NULL, 0));

    ANSWERS(5, stallbrook_astc_caption_block(0, 255, NULL, 0, written, 16));
    ANSWERS(4, stallbrook_astc_caption_block(0, 255, wanted, 16, NULL, 0));
    ANSWERS(5, stallbrook_astc_caption_image(0, 255, 4, 4, NULL, 0, written, 16));
    ANSWERS(4, stallbrook_astc_caption_image(0, 255, 4, 4, wanted, 16, NULL, 0));

    ANSWERS(5, stallbrook_astc_write_header(0, 4, 4, NULL, 0));
    ANSWERS(0, stallbrook_astc_write_header(0, 4, 4, file, STALLBROOK_FILE_HEADER));
    memcpy(file + STALLBROOK_FILE_HEADER, block, 16);
    ANSWERS(41, stallbrook_astc_read_header(NULL, 0, header, STALLBROOK_HEADER));
    ANSWERS(5, stallbrook_astc_read_header(file, sizeof file, NULL, 0));
    ANSWERS(41, stallbrook_astc_decode_file_unorm16(NULL, 0, words, 64, tally, 3));
    ANSWERS(5, stallbrook_astc_decode_file_unorm16(file, sizeof file, NULL, 0, tally, 3));
    ANSWERS(5, stallbrook_astc_decode_file_unorm16(file, sizeof file, words, 64, NULL, 0));
    ANSWERS(41, stallbrook_astc_decode_file_srgb8(NULL, 0, bytes, 64, tally, 3));
    ANSWERS(5, stallbrook_astc_decode_file_srgb8(file, sizeof file, NULL, 0, tally, 3));
    ANSWERS(5, stallbrook_astc_decode_file_srgb8(file, sizeof file, bytes, 64, NULL, 0));
    ANSWERS(41, stallbrook_astc_decode_file_float16(NULL, 0, words, 64, tally, 3));
    ANSWERS(5, stallbrook_astc_decode_file_float16(file, sizeof file, NULL, 0, tally, 3));
    ANSWERS(5, stallbrook_astc_decode_file_float16(file, sizeof file, words, 64, NULL, 0));

    ANSWERS(5, stallbrook_clip_start(NULL, 0));
    ANSWERS(0, stallbrook_clip_start(state, STALLBROOK_CLIP_STATE));
    ANSWERS(5, stallbrook_clip_feed(NULL, 0, block, 16, written, 16, told, STALLBROOK_CLIP_TOLD));
    ANSWERS(5, stallbrook_clip_feed(state, STALLBROOK_CLIP_STATE, block, 16, NULL, 0, told, STALLBROOK_CLIP_TOLD));
    ANSWERS(5, stallbrook_clip_feed(state, STALLBROOK_CLIP_STATE, block, 16, written, 16, NULL, 0));
    /* an empty piece is taken: nothing happens, and the clip still wants its version byte */
    ANSWERS(0, stallbrook_clip_feed(state, STALLBROOK_CLIP_STATE, NULL, 0, written, 16, told, STALLBROOK_CLIP_TOLD));
    answers("bytes taken", (int)told[STALLBROOK_TOLD_TAKEN], 0);
    ANSWERS(5, stallbrook_clip_finish(NULL, 0));
    ANSWERS(53, stallbrook_clip_finish(state, STALLBROOK_CLIP_STATE));
    ANSWERS(4, stallbrook_clip_write_frame(0, 0, 4, 4, NULL, 0, bytes, 26));
    ANSWERS(5, stallbrook_clip_write_frame(0, 0, 4, 4, block, 16, NULL, 0));

    ANSWERS(4, stallbrook_pvrtc_decode_image(4, 4, NULL, 0, bytes, 64));
    ANSWERS(5, stallbrook_pvrtc_decode_image(4, 4, block, 8, NULL, 0));

    ANSWERS(4, stallbrook_bc7_decode_block(NULL, 0, bytes, 64));
    ANSWERS(5, stallbrook_bc7_decode_block(block, 16, NULL, 0));
    ANSWERS(4, stallbrook_bc7_decode_image(4, 4, NULL, 0, bytes, 64, tally, 3));
    ANSWERS(5, stallbrook_bc7_decode_image(4, 4, block, 16, NULL, 0, tally, 3));
    ANSWERS(5, stallbrook_bc7_decode_image(4, 4, block, 16, bytes, 64, NULL, 0));
    ANSWERS(4, stallbrook_bc7_read_symbolic(NULL, 0, bc7, sizeof bc7));
    ANSWERS(5, stallbrook_bc7_read_symbolic(block, 16, NULL, 0));
    ANSWERS(5, stallbrook_bc7_write_symbolic(NULL, 0, written, 16));
    ANSWERS(4, stallbrook_bc7_write_symbolic(bc7, sizeof bc7, NULL, 0));
    return wrong;
}

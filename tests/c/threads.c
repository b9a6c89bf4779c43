/* Calls on several threads at once, on pictures that all share and on each thread's own, answer as on one thread. */
#include <pthread.h>
#include <stdio.h>
#include <stdlib.h>
#include <string.h>

#include "stallbrook.h"

enum { THREADS = 8, ROUNDS = 40, SIDE = 64, BLOCKS = SIDE / 4 * (SIDE / 4), NUMBERS = 4 * SIDE * SIDE };
enum { CUBE = 24, VOLUME_BLOCKS = CUBE * CUBE * CUBE / 64, VOLUME_NUMBERS = 4 * CUBE * CUBE * CUBE }; /* of 4x4x4 blocks */

/* What a picture's calls leave. */
struct seen {
    uint16_t unorm16[NUMBERS], float16[NUMBERS], symbolic[STALLBROOK_SYMBOLIC];
    uint8_t srgb8[NUMBERS], bc7[NUMBERS], pvrtc[NUMBERS], written[16], caption[BLOCKS * 16], clip_block[16], faults[BLOCKS], answers[13];
    uint8_t volume[VOLUME_NUMBERS];
    uint64_t tally[6][STALLBROOK_TALLY], told[STALLBROOK_CLIP_TOLD];
    uint16_t texel[4], spare[STALLBROOK_SPARE];
};
struct picture {
    uint8_t blocks[BLOCKS * 16], frame[1 + STALLBROOK_FRAME_HEADER + BLOCKS * 16];
};

static struct picture pictures[THREADS + 1]; /* the last is shared */
static struct seen alone[THREADS + 1];
static int differs[THREADS];

/* Blocks of a caption, solid ones, and random bytes, of which most are faulty. */
static void make(struct picture *p, uint32_t seed)
{
    static uint8_t wanted[SIDE * SIDE];
    for (int i = 0; i < SIDE * SIDE; i++)
        wanted[i] = (uint8_t)((seed = seed * 1664525u + 1013904223u) >> 24);
    stallbrook_astc_caption_image((uint8_t)seed, 250, SIDE, SIDE, wanted, sizeof wanted, p->blocks, sizeof p->blocks);
    for (int b = 0; b < BLOCKS; b += 3) {
        memset(p->blocks + 16 * b, 0xff, 8);
        p->blocks[16 * b] = 0xfc;
        p->blocks[16 * b + 1] = 0xfd;
        for (int i = b % 2 == 0 ? 8 : 0; i < 16; i++)
            p->blocks[16 * b + i] = (uint8_t)((seed = seed * 1664525u + 1013904223u) >> 24);
    }
    p->frame[0] = 1;
    stallbrook_clip_write_frame(0, 1, SIDE, SIDE, p->blocks, sizeof p->blocks, p->frame + 1, sizeof p->frame - 1);
}

static void see(const struct picture *p, struct seen *s)
{
    uint32_t state[STALLBROOK_CLIP_STATE];
    memset(s, 0, sizeof *s);
    s->answers[0] = stallbrook_astc_decode_image_unorm16(0, SIDE, SIDE, p->blocks, sizeof p->blocks, s->unorm16, NUMBERS, s->tally[0], 3);
    s->answers[1] = stallbrook_astc_decode_image_srgb8(0, SIDE, SIDE, p->blocks, sizeof p->blocks, s->srgb8, NUMBERS, s->tally[1], 3);
    s->answers[2] = stallbrook_astc_decode_image_float16(0, SIDE, SIDE, p->blocks, sizeof p->blocks, s->float16, NUMBERS, s->tally[2], 3);
    s->answers[3] = stallbrook_bc7_decode_image(SIDE, SIDE, p->blocks, sizeof p->blocks, s->bc7, NUMBERS, s->tally[3], 3);
    s->answers[4] = stallbrook_pvrtc_decode_image(SIDE, SIDE, p->blocks, sizeof p->blocks / 2, s->pvrtc, NUMBERS);
    s->answers[5] = stallbrook_astc_read_symbolic(0, p->blocks + 16, 16, s->symbolic, STALLBROOK_SYMBOLIC, s->spare, STALLBROOK_SPARE);
    s->answers[6] = stallbrook_astc_write_symbolic(0, s->symbolic, STALLBROOK_SYMBOLIC, s->written, 16);
    s->answers[7] = stallbrook_astc_caption_image(3, 200, SIDE, SIDE, p->blocks, SIDE * SIDE, s->caption, sizeof s->caption);
    s->answers[8] = stallbrook_astc_texel_unorm16(0, SIDE, SIDE, p->blocks, sizeof p->blocks, SIDE / 2, SIDE - 1, s->texel, 4);
    s->answers[11] = stallbrook_astc_image_faults(0, 1, SIDE, SIDE, p->blocks, sizeof p->blocks, s->faults, sizeof s->faults, s->tally[4], 3);
    s->answers[12] = stallbrook_astc_decode_volume_srgb8(STALLBROOK_4X4X4, CUBE, CUBE, CUBE, p->blocks, 16 * VOLUME_BLOCKS, s->volume, VOLUME_NUMBERS, s->tally[5], 3);
    s->answers[9] = stallbrook_clip_start(state, STALLBROOK_CLIP_STATE);
    s->answers[10] = stallbrook_clip_feed(state, STALLBROOK_CLIP_STATE, p->frame, sizeof p->frame, s->clip_block, 16, s->told, STALLBROOK_CLIP_TOLD);
}

static void *run(void *which)
{
    int mine = *(int *)which;
    struct seen *s = malloc(sizeof *s);
    for (int round = 0; round < ROUNDS; round++) {
        int picture = round % 2 == 0 ? mine : THREADS;
        see(&pictures[picture], s);
        differs[mine] |= memcmp(s, &alone[picture], sizeof *s) != 0;
    }
    free(s);
    return NULL;
}

int main(void)
{
    pthread_t threads[THREADS];
    int which[THREADS], wrong = 0;
    for (int i = 0; i <= THREADS; i++) {
        make(&pictures[i], (uint32_t)i);
        see(&pictures[i], &alone[i]);
        for (int a = 0; a < 13; a++)
            wrong |= alone[i].answers[a] != 0; /* none of them is refused */
        wrong |= alone[i].tally[1][STALLBROOK_TALLY_FAULTY] == 0 || alone[i].tally[1][STALLBROOK_TALLY_FAULTY] == BLOCKS;
    }
    for (int i = 0; i < THREADS; i++) {
        which[i] = i;
        if (pthread_create(&threads[i], NULL, run, &which[i]) != 0)
            return 2;
    }
    for (int i = 0; i < THREADS; i++) {
        pthread_join(threads[i], NULL);
        wrong |= differs[i];
    }
    puts(wrong ? "threads differ" : "8 threads answer as one");
    return wrong;
}

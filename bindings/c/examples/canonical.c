/* One agreed form of each block: a block with a spare bit set passes the ordinary reading and not the strict one; rewritten it passes both. */
#include <stdio.h>

#include "stallbrook.h"

static void tell(const char *name, const uint8_t *blocks, size_t blocks_len)
{
    uint8_t faults[2];
    uint64_t tally[STALLBROOK_TALLY];
    if (stallbrook_astc_strict_image_faults(STALLBROOK_4X4, STALLBROOK_SRGB8, 8, 4, blocks, blocks_len, faults, sizeof faults, tally, STALLBROOK_TALLY))
        return;
    printf("%s: %u of 2 blocks do not pass\n", name, (unsigned)tally[STALLBROOK_TALLY_FAULTY]);
    for (int i = 0; i < 2; i++)
        if (faults[i])
            printf("  block %d, fault %u: %s\n", i, faults[i], stallbrook_text(faults[i]));
}

int main(void)
{
    uint8_t blocks[2 * STALLBROOK_BLOCK] = {0x42, 0, 0, 0xFE, 1, 1, 0, 0, 0, 0, 0, 0, 0, 0, 0, 0x80,
                                            0x42, 0, 0, 0xFE, 1, 0, 0, 0, 0, 0, 0, 0, 0, 0, 0, 0x80};
    uint64_t tally[STALLBROOK_TALLY];
    tell("as it came", blocks, sizeof blocks);
    uint8_t answer = stallbrook_astc_canonical_in_place(STALLBROOK_4X4, 8, 4, blocks, sizeof blocks, tally, STALLBROOK_TALLY);
    if (answer) {
        printf("refused %u: %s\n", answer, stallbrook_text(answer));
        return 1;
    }
    tell("rewritten", blocks, sizeof blocks);
    return 0;
}

/* The header's tables and words against what the calls answer. */
#include <stdio.h>
#include <string.h>

#include "stallbrook.h"

static int wrong = 0;

static void expect(int good, const char *what, int number)
{
    if (!good) {
        printf("%s: %d\n", what, number);
        wrong = 1;
    }
}

int main(void)
{
    char version[32];
    snprintf(version, sizeof version, "%d.%d.%d", STALLBROOK_VERSION_MAJOR, STALLBROOK_VERSION_MINOR, STALLBROOK_VERSION_PATCH);
    expect(strcmp(version, STALLBROOK_VERSION) == 0, "the version's parts", 0);
    expect(strcmp(version, stallbrook_version()) == 0, "the library's version", 0);

    /* a file's header has a flat footprint's sides in its fifth, sixth and seventh byte; a volume has none */
    for (int footprint = 0; footprint < 256; footprint++) {
        uint8_t fp = (uint8_t)footprint, header[STALLBROOK_FILE_HEADER];
        uint32_t w = stallbrook_footprint_width(fp), h = stallbrook_footprint_height(fp), d = stallbrook_footprint_depth(fp);
        int flat = footprint < STALLBROOK_FLAT_FOOTPRINTS;
        expect(stallbrook_astc_write_header(fp, 1, 1, header, sizeof header) == (flat ? STALLBROOK_DONE : STALLBROOK_REFUSED_FOOTPRINT), "footprint", footprint);
        expect(header[4] == (flat ? w : 0) && header[5] == (flat ? h : 0) && header[6] == (flat ? d : 0), "sides of footprint", footprint);
        expect((d > 1) == (!flat && footprint < STALLBROOK_FOOTPRINTS), "depth of footprint", footprint);

        /* one block is as large as the header says on each axis, and one texel more takes another */
        expect(stallbrook_astc_block_numbers(fp) == STALLBROOK_TEXEL * w * h * d, "numbers of footprint", footprint);
        if (w != 0) {
            expect(stallbrook_astc_volume_blocks(fp, w, h, d) == 1, "a block of footprint", footprint);
            expect(stallbrook_astc_volume_blocks(fp, w + 1, h, d) == 2, "width of footprint", footprint);
            expect(stallbrook_astc_volume_blocks(fp, w, h + 1, d) == 2, "height of footprint", footprint);
            expect(stallbrook_astc_volume_blocks(fp, w, h, d + 1) == 2, "depth of footprint", footprint);
        }

        /* sizes, by the header's own sides */
        static const uint32_t sides[] = {0, 1, 4, 5, 12, 13, 97, STALLBROOK_LARGEST_DEPTH, STALLBROOK_LARGEST_DEPTH + 1, STALLBROOK_LARGEST_SIDE,
            STALLBROOK_LARGEST_SIDE + 1, UINT32_MAX};
        for (size_t i = 0; i < sizeof sides / sizeof *sides; i++)
            for (size_t k = 0; k < sizeof sides / sizeof *sides; k++) {
                uint64_t x = sides[i], y = sides[k];
                int refused = x == 0 || x > STALLBROOK_LARGEST_SIDE || y == 0 || y > STALLBROOK_LARGEST_SIDE;
                uint64_t layer = refused || w == 0 ? 0 : (x + w - 1) / w * ((y + h - 1) / h);
                expect(stallbrook_astc_image_blocks(fp, sides[i], sides[k]) == (flat ? layer : 0), "blocks of footprint", footprint);
                expect(stallbrook_astc_image_numbers(sides[i], sides[k]) == (refused ? 0 : STALLBROOK_TEXEL * x * y), "numbers", (int)x);
                for (size_t m = 0; m < sizeof sides / sizeof *sides; m++) {
                    uint64_t z = sides[m];
                    int too_deep = refused || z == 0 || z > STALLBROOK_LARGEST_DEPTH;
                    uint64_t blocks = too_deep || d == 0 ? 0 : layer * ((z + d - 1) / d);
                    expect(stallbrook_astc_volume_blocks(fp, sides[i], sides[k], sides[m]) == blocks, "blocks of a volume, footprint", footprint);
                    uint64_t numbers = too_deep ? 0 : STALLBROOK_TEXEL * x * y * z;
                    expect(stallbrook_astc_volume_numbers(sides[i], sides[k], sides[m]) == numbers, "numbers of a volume", (int)z);
                }
            }
    }
    expect(stallbrook_footprint_width(STALLBROOK_10X8) == 10 && stallbrook_footprint_height(STALLBROOK_10X8) == 8, "10x8", STALLBROOK_10X8);
    expect(stallbrook_footprint_width(STALLBROOK_5X4X4) == 5 && stallbrook_footprint_depth(STALLBROOK_5X4X4) == 4, "5x4x4", STALLBROOK_5X4X4);

    /* the largest side, and one more */
    uint8_t header[STALLBROOK_FILE_HEADER];
    expect(stallbrook_astc_write_header(STALLBROOK_12X12, STALLBROOK_LARGEST_SIDE, 1, header, sizeof header) == STALLBROOK_DONE, "largest side", 0);
    expect(stallbrook_astc_write_header(STALLBROOK_12X12, STALLBROOK_LARGEST_SIDE + 1, 1, header, sizeof header) == STALLBROOK_REFUSED_SIDE,
        "largest side and one", 0);

    /* every number has a sentence, those of no call one in common, the others each its own */
    int known = 0;
    for (int a = 0; a < 256; a++) {
        const char *text = stallbrook_text((uint8_t)a);
        expect(text != NULL && strlen(text) > 9, "no sentence", a);
        if (strcmp(text, stallbrook_text(255)) == 0)
            continue;
        known++;
        for (int b = 0; b < a; b++)
            expect(strcmp(text, stallbrook_text((uint8_t)b)) != 0, "the sentence of another number", a);
    }
    printf("%d numbers have a sentence of their own\n", known);
    return wrong;
}

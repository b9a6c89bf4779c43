/* Stallbrook: compressed textures read exactly. ASTC blocks, images, volumes and .astc files to texels, blocks to symbolic blocks and back,
 * captions, clips; BC7 blocks and pictures; PVRTC1 images. Link libstallbrook.a or libstallbrook.so.
 *
 * A list is lent as pointer and length, the length in elements. The pointer must be aligned and good for that many elements; where the length is
 * 0 it may be any, NULL too. A list that a call writes must not overlap any other list of the same call. Every call takes every number: nothing is
 * undefined beyond that. On a refusal texels stay as they were; lists in which a call tells numbers (tally, numbers, a written block) are all 0,
 * unless they themselves have another length than said.
 *
 * Every call may run on several threads at once: no call keeps anything between calls, or reads or writes memory but its own and what it was
 * lent. Only the lists that a call writes are its own while it runs; lists that it only reads may be shared.
 *
 * Calls answer a uint8_t: 0 where all went well, else the number of a refusal or fault, below. stallbrook_text() says it in words.
 *
 * Texels are R, G, B, A, rows first, of volumes layer by layer. Kind 0, unorm16: 16-bit numbers (endpoints widen to 257c). Kind 1, srgb8: bytes before the sRGB curve (they
 * widen to 256c+128, alpha as the colours, and the top byte is shown). Kind 2, float16: half floats, as 16-bit patterns, of LDR and of HDR
 * blocks: of an LDR channel 1.0 for the kind 0 number 65535, else that number / 65536 rounded towards zero; an HDR void extent shows its four
 * colours as they are stored, infinities and NaN too.
 */
#ifndef STALLBROOK_H
#define STALLBROOK_H

#include <stddef.h>
#include <stdint.h>

#ifdef __cplusplus
extern "C" {
#endif

/* ---- Version, constants, and what the numbers mean. */

#define STALLBROOK_VERSION "0.7.3"
#define STALLBROOK_VERSION_MAJOR 0
#define STALLBROOK_VERSION_MINOR 7
#define STALLBROOK_VERSION_PATCH 3

/* STALLBROOK_VERSION of the library that is linked or loaded. */
const char *stallbrook_version(void);

/* The English sentence of a refusal or a fault, "no refusal and no fault" for 0, and a sentence for every other number too. It is never freed. */
const char *stallbrook_text(uint8_t number);

enum stallbrook_kind { STALLBROOK_UNORM16 = 0, STALLBROOK_SRGB8 = 1, STALLBROOK_FLOAT16 = 2 };

enum stallbrook_footprint {
    STALLBROOK_4X4 = 0,
    STALLBROOK_5X4 = 1,
    STALLBROOK_5X5 = 2,
    STALLBROOK_6X5 = 3,
    STALLBROOK_6X6 = 4,
    STALLBROOK_8X5 = 5,
    STALLBROOK_8X6 = 6,
    STALLBROOK_8X8 = 7,
    STALLBROOK_10X5 = 8,
    STALLBROOK_10X6 = 9,
    STALLBROOK_10X8 = 10,
    STALLBROOK_10X10 = 11,
    STALLBROOK_12X10 = 12,
    STALLBROOK_12X12 = 13,
    STALLBROOK_FLAT_FOOTPRINTS = 14, /* how many: those before are flat, those from here on are volumes */
    STALLBROOK_3X3X3 = 14,
    STALLBROOK_4X3X3 = 15,
    STALLBROOK_4X4X3 = 16,
    STALLBROOK_4X4X4 = 17,
    STALLBROOK_5X4X4 = 18,
    STALLBROOK_5X5X4 = 19,
    STALLBROOK_5X5X5 = 20,
    STALLBROOK_6X5X5 = 21,
    STALLBROOK_6X6X5 = 22,
    STALLBROOK_6X6X6 = 23,
    STALLBROOK_FOOTPRINTS = 24
};

/* A footprint's sides in texels; 0 above 23. A flat one has depth 1. */
static inline uint32_t stallbrook_footprint_width(uint8_t footprint)
{
    static const uint8_t widths[STALLBROOK_FOOTPRINTS] = {4, 5, 5, 6, 6, 8, 8, 8, 10, 10, 10, 10, 12, 12, 3, 4, 4, 4, 5, 5, 5, 6, 6, 6};
    return footprint < STALLBROOK_FOOTPRINTS ? widths[footprint] : 0;
}
static inline uint32_t stallbrook_footprint_height(uint8_t footprint)
{
    static const uint8_t heights[STALLBROOK_FOOTPRINTS] = {4, 4, 5, 5, 6, 5, 6, 8, 5, 6, 8, 10, 10, 12, 3, 3, 4, 4, 4, 5, 5, 5, 6, 6};
    return footprint < STALLBROOK_FOOTPRINTS ? heights[footprint] : 0;
}
static inline uint32_t stallbrook_footprint_depth(uint8_t footprint)
{
    static const uint8_t depths[STALLBROOK_FOOTPRINTS] = {1, 1, 1, 1, 1, 1, 1, 1, 1, 1, 1, 1, 1, 1, 3, 3, 3, 4, 4, 4, 5, 5, 5, 6};
    return footprint < STALLBROOK_FOOTPRINTS ? depths[footprint] : 0;
}

/* Lengths of lists, in elements, and the largest sides of a picture. */
enum {
    STALLBROOK_LARGEST_SIDE = 16384,
    STALLBROOK_LARGEST_DEPTH = 2048,
    STALLBROOK_BLOCK = 16,        /* bytes of an ASTC or BC7 block */
    STALLBROOK_TEXEL = 4,         /* numbers of a texel */
    STALLBROOK_TALLY = 3,         /* numbers of a tally */
    STALLBROOK_SYMBOLIC = 107,    /* numbers of a symbolic block */
    STALLBROOK_SPARE = 2,         /* numbers told of a block's spare bits */
    STALLBROOK_HEADER = 3,        /* numbers of a file's header as it is read */
    STALLBROOK_FILE_HEADER = 16,  /* bytes of it as it is written */
    STALLBROOK_CLIP_STATE = 26,   /* numbers of a clip's state */
    STALLBROOK_CLIP_TOLD = 8,     /* numbers that a feed tells */
    STALLBROOK_FRAME_HEADER = 10, /* bytes of a clip's frame before its blocks */
    STALLBROOK_BC7_TEXELS = 64,   /* bytes of a BC7 block's texels */
    STALLBROOK_BC7_SHEET = 60,    /* numbers of a BC7 sheet */
    STALLBROOK_PVRTC_WORD = 8     /* bytes of a PVRTC1 word */
};

/* Places in a tally, in what is told of spare bits, in a file's header, and in what a feed tells. */
enum { STALLBROOK_TALLY_FAULTY = 0, STALLBROOK_TALLY_FIRST = 1, STALLBROOK_TALLY_FAULT = 2 };
enum { STALLBROOK_SPARE_COUNT = 0, STALLBROOK_SPARE_SET = 1 };
enum { STALLBROOK_HEADER_FOOTPRINT = 0, STALLBROOK_HEADER_WIDTH = 1, STALLBROOK_HEADER_HEIGHT = 2 };
enum {
    STALLBROOK_TOLD_TAKEN = 0,
    STALLBROOK_TOLD_HANDED = 1,
    STALLBROOK_TOLD_FRAME = 2,
    STALLBROOK_TOLD_INDEX = 3,
    STALLBROOK_TOLD_FOOTPRINT = 4,
    STALLBROOK_TOLD_KIND = 5,
    STALLBROOK_TOLD_WIDTH = 6,
    STALLBROOK_TOLD_HEIGHT = 7
};

/* Places in a symbolic block's numbers and in a BC7 sheet: each field's first. */
enum {
    STALLBROOK_SYMBOLIC_VOID_EXTENT = 0,
    STALLBROOK_SYMBOLIC_COLOURS = 1, /* 4 */
    STALLBROOK_SYMBOLIC_EXTENTS = 5, /* 4: low s, high s, low t, high t */
    STALLBROOK_SYMBOLIC_GRID_WIDTH = 9,
    STALLBROOK_SYMBOLIC_GRID_HEIGHT = 10,
    STALLBROOK_SYMBOLIC_WEIGHT_RANGE = 11,
    STALLBROOK_SYMBOLIC_PLANES = 12,
    STALLBROOK_SYMBOLIC_PLANE_CHANNEL = 13,
    STALLBROOK_SYMBOLIC_PARTITIONS = 14,
    STALLBROOK_SYMBOLIC_PARTITION_INDEX = 15,
    STALLBROOK_SYMBOLIC_SELECTOR = 16,
    STALLBROOK_SYMBOLIC_MODES = 17,     /* 4 */
    STALLBROOK_SYMBOLIC_ENDPOINTS = 21, /* 18 */
    STALLBROOK_SYMBOLIC_WEIGHTS = 39,   /* 64 */
    STALLBROOK_SYMBOLIC_HDR = 103,
    STALLBROOK_SYMBOLIC_GRID_DEPTH = 104,
    STALLBROOK_SYMBOLIC_DEPTH_EXTENTS = 105 /* 2: low r, high r */
};
enum {
    STALLBROOK_BC7_MODE = 0,
    STALLBROOK_BC7_PARTITION = 1,
    STALLBROOK_BC7_ROTATION = 2,
    STALLBROOK_BC7_SELECTION = 3,
    STALLBROOK_BC7_ENDPOINTS = 4, /* 18 */
    STALLBROOK_BC7_P_BITS = 22,   /* 6 */
    STALLBROOK_BC7_PRIMARY = 28,  /* 16 */
    STALLBROOK_BC7_SECONDARY = 44 /* 16 */
};

/* Refusals. A call tells the first that holds, in the order that it says. */
enum stallbrook_refusal {
    STALLBROOK_DONE = 0,
    STALLBROOK_REFUSED_FOOTPRINT = 1,       /* footprint above 23; above 13 where a call takes flat ones only */
    STALLBROOK_REFUSED_KIND = 2,            /* kind above 2 */
    STALLBROOK_REFUSED_SIDE = 3,            /* an image or volume side is 0 or above 16384, or a depth 0 or above 2048 */
    STALLBROOK_REFUSED_BLOCKS = 4,          /* block bytes not exactly 16 for each block; of PVRTC1 not 8 for each word */
    STALLBROOK_REFUSED_LENGTH = 5,          /* the call's other list (texels, tally, numbers or wanted greys) not exactly as long as said */
    STALLBROOK_REFUSED_FIELD = 31,          /* symbolic block: a field outside its limits, or an unused field not 0 */
    STALLBROOK_REFUSED_BLOCK_MODE = 32,     /* no block mode has this grid, range and planes */
    STALLBROOK_REFUSED_SELECTOR = 33,       /* endpoint modes that do not fit the selector */
    STALLBROOK_REFUSED_RANGE = 34,          /* an endpoint number or weight above its range, or an unused one not 0 */
    STALLBROOK_REFUSED_HDR_MARK = 35,       /* the HDR mark is set, and no partition's endpoint mode is HDR */
    STALLBROOK_REFUSED_FILE_SHORT = 41,     /* .astc file: fewer than 16 bytes */
    STALLBROOK_REFUSED_FILE_START = 42,     /* another start than 13 AB A1 5C */
    STALLBROOK_REFUSED_FILE_FOOTPRINT = 43, /* a footprint that is not in the list, or a depth or third size other than 1 */
    STALLBROOK_REFUSED_PLACE = 44,          /* one texel: outside the image, or of blocks that are refused by 1, 3 or 4 */
    STALLBROOK_REFUSED_CLIP_VERSION = 51,   /* clip: another version */
    STALLBROOK_REFUSED_FRAME_LENGTH = 52,   /* a frame's length is not 6 plus 16 for each block */
    STALLBROOK_REFUSED_CLIP_END = 53,       /* the end inside a frame or before the version byte */
    STALLBROOK_REFUSED_PVRTC_SIDE = 61,     /* PVRTC1: a side is not a power of two from 4 to 4096 */
    STALLBROOK_REFUSED_BC7_MODE = 72,       /* BC7 sheet: a mode above 7 */
    STALLBROOK_REFUSED_BC7_FIELD = 73       /* a field or an anchor index beyond its bits in that mode, or an unused one not 0 */
};

/* Faults of a block, the first that holds; float16 has no 13 and no 20, and the strict calls alone tell 21. 12 and 14 to 19 are refusals of a
 * symbolic block too, and 20 where its HDR mark is clear with an HDR endpoint mode. */
enum stallbrook_fault {
    STALLBROOK_FAULT_RESERVED = 11,         /* reserved block mode */
    STALLBROOK_FAULT_VOID_EXTENT = 12,      /* void extent: flat with bits 11..10 not both 1, or extents neither all ones nor low < high on every axis */
    STALLBROOK_FAULT_HDR_VOID_EXTENT = 13,  /* void extent with bit 9 set (HDR) */
    STALLBROOK_FAULT_GRID = 14,             /* weight grid wider, higher or deeper than the footprint */
    STALLBROOK_FAULT_WEIGHTS = 15,          /* more than 64 weights, both planes counted */
    STALLBROOK_FAULT_WEIGHT_BITS = 16,      /* weight bits below 24 or above 96 */
    STALLBROOK_FAULT_PLANES = 17,           /* two planes with four partitions */
    STALLBROOK_FAULT_ENDPOINTS = 18,        /* more than 18 endpoint numbers */
    STALLBROOK_FAULT_ENDPOINT_BITS = 19,    /* too few endpoint bits */
    STALLBROOK_FAULT_HDR_MODE = 20,         /* a partition with an HDR endpoint mode */
    STALLBROOK_FAULT_NOT_CANONICAL = 21,    /* strict calls only: not the block that the writer makes from its own symbolic block */
    STALLBROOK_FAULT_BC7_RESERVED = 71      /* BC7: a first byte of 0 */
};

/* ---- Sizes of ASTC images and volumes, so that no table is typed again. */

/* How many blocks an image has, each of 16 bytes: 0 where the footprint is above 13 or a side is 0 or above 16384. */
uint64_t stallbrook_astc_image_blocks(uint8_t footprint, uint32_t width, uint32_t height);

/* How many numbers an image's texels are, 4 for each: 0 where a side is 0 or above 16384. */
uint64_t stallbrook_astc_image_numbers(uint32_t width, uint32_t height);

/* How many blocks a volume has, each of 16 bytes: 0 where the footprint is above 23, a side is 0 or above 16384, or the depth 0 or above 2048. */
uint64_t stallbrook_astc_volume_blocks(uint8_t footprint, uint32_t width, uint32_t height, uint32_t depth);

/* How many numbers a volume's texels are, 4 for each: 0 where a side is 0 or above 16384, or the depth 0 or above 2048. */
uint64_t stallbrook_astc_volume_numbers(uint32_t width, uint32_t height, uint32_t depth);

/* How many numbers a block's texels are, 4 for each: 0 where the footprint is above 23. */
uint32_t stallbrook_astc_block_numbers(uint8_t footprint);

/* ---- ASTC blocks, images and volumes. The calls of one block take all footprints, 0 to 23, and so do the volume calls; those of an image, a file, a
 * clip, a texel or a view take the flat ones, 0 to 13. */

/* A block's texels: 16 bytes to 4 numbers for each texel of the footprint.
 * Answers 0, the block's fault (11 to 20; every texel is then 65535, 0, 65535, 65535, in srgb8 255, 0, 255, 255, in float16 65535 four times),
 * or the refusal 1, 4 or 5, which leaves out as it was. */
uint8_t stallbrook_astc_decode_block_unorm16(uint8_t footprint, const uint8_t *block, size_t block_len, uint16_t *out, size_t out_len);
uint8_t stallbrook_astc_decode_block_srgb8(uint8_t footprint, const uint8_t *block, size_t block_len, uint8_t *out, size_t out_len);
uint8_t stallbrook_astc_decode_block_float16(uint8_t footprint, const uint8_t *block, size_t block_len, uint16_t *out, size_t out_len);

/* An image's texels: blocks in raster order, 16 bytes each, to 4 numbers for each texel of width x height.
 * Answers 0, or the refusal 1, 3, 4 or 5, which leaves out as it was. tally is of 3 numbers: the count of blocks with a fault, and the
 * raster index and the fault of the first one (both 0 where there is none); all 0 on a refusal. A tally of another length is refused
 * by 5, after 1, 3 and 4, and nothing at all is written. */
uint8_t stallbrook_astc_decode_image_unorm16(uint8_t footprint, uint32_t width, uint32_t height, const uint8_t *blocks, size_t blocks_len,
    uint16_t *out, size_t out_len, uint64_t *tally, size_t tally_len);
uint8_t stallbrook_astc_decode_image_srgb8(uint8_t footprint, uint32_t width, uint32_t height, const uint8_t *blocks, size_t blocks_len,
    uint8_t *out, size_t out_len, uint64_t *tally, size_t tally_len);
uint8_t stallbrook_astc_decode_image_float16(uint8_t footprint, uint32_t width, uint32_t height, const uint8_t *blocks, size_t blocks_len,
    uint16_t *out, size_t out_len, uint64_t *tally, size_t tally_len);

/* A volume's texels: blocks of 16 bytes, x fastest, then y, then z, to 4 numbers for each texel of width x height x depth, in the same order. A flat
 * footprint is taken too: its blocks are one layer thick.
 * Answers 0, or the refusal 1, 3, 4 or 5, which leaves out as it was. tally as in the image calls; the first block's index is its place in the list. */
uint8_t stallbrook_astc_decode_volume_unorm16(uint8_t footprint, uint32_t width, uint32_t height, uint32_t depth, const uint8_t *blocks,
    size_t blocks_len, uint16_t *out, size_t out_len, uint64_t *tally, size_t tally_len);
uint8_t stallbrook_astc_decode_volume_srgb8(uint8_t footprint, uint32_t width, uint32_t height, uint32_t depth, const uint8_t *blocks,
    size_t blocks_len, uint8_t *out, size_t out_len, uint64_t *tally, size_t tally_len);
uint8_t stallbrook_astc_decode_volume_float16(uint8_t footprint, uint32_t width, uint32_t height, uint32_t depth, const uint8_t *blocks,
    size_t blocks_len, uint16_t *out, size_t out_len, uint64_t *tally, size_t tally_len);

/* Which blocks of an image have a fault: one byte for each block in raster order, 0 or the fault that the image call of that kind tells of it. No
 * texel is painted. A block has 0 exactly where the image call shows its own texels: magenta with 0 is a magenta picture.
 * Answers 0, or the refusal 1, 2 (kind above 2), 3, 4 or 5 (faults not exactly one byte for each block), which leaves faults as they were. tally as
 * in the image calls: a tally of another length is refused by 5, after 1, 2, 3 and 4, and nothing at all is written. */
uint8_t stallbrook_astc_image_faults(uint8_t footprint, uint8_t kind, uint32_t width, uint32_t height, const uint8_t *blocks, size_t blocks_len,
    uint8_t *faults, size_t faults_len, uint64_t *tally, size_t tally_len);

/* One texel of an image, by column x and row y, no block unpacked: footprint, sides and blocks as in the image calls, whose number of that
 * place it is, to 4 numbers. float16: patterns of half floats, HDR taken, 65535 four times for a block with a fault.
 * Answers 0; the fault of the texel's block, with the error colour; 44, with four zeros, where x or y lies outside the image or a view of these
 * blocks would be refused; or else 5 where out is not of 4 numbers. Out of another length is left as it was. */
uint8_t stallbrook_astc_texel_unorm16(uint8_t footprint, uint32_t width, uint32_t height, const uint8_t *blocks, size_t blocks_len,
    uint32_t x, uint32_t y, uint16_t *out, size_t out_len);
uint8_t stallbrook_astc_texel_srgb8(uint8_t footprint, uint32_t width, uint32_t height, const uint8_t *blocks, size_t blocks_len,
    uint32_t x, uint32_t y, uint8_t *out, size_t out_len);
uint8_t stallbrook_astc_texel_float16(uint8_t footprint, uint32_t width, uint32_t height, const uint8_t *blocks, size_t blocks_len,
    uint32_t x, uint32_t y, uint16_t *out, size_t out_len);

/* What a view of these blocks is refused by: 1, 3 or 4, or 0. The calls above test it at each asking. */
uint8_t stallbrook_astc_view_refusal(uint8_t footprint, uint32_t width, uint32_t height, const uint8_t *blocks, size_t blocks_len);

/* A block's symbolic block: its settings and stored numbers, as 107 numbers. In order, with their places: void-extent mark (0), 4 colours
 * (1 to 4), 4 extents (5 to 8), grid width (9), grid height (10), weight range (11), planes (12), plane channel (13), partitions (14),
 * partition index (15), selector (16), 4 endpoint modes (17 to 20), 18 endpoint numbers (21 to 38), 64 weights (39 to 102), HDR mark (103), grid
 * depth (104), 2 extents of the third axis (105, 106); unused ones are 0. The HDR mark is a void extent's bit 9; of any other block it is 1 exactly
 * where some partition's endpoint mode is HDR. The grid depth is 1 at flat footprints, 2 to 6 at volumes, and 0 of a void extent, whose extents are at
 * most 8191 and four at flat footprints, at most 511 and six at volumes.
 * And its spare bits, those between endpoint numbers and weights that no field has, as 2 numbers: how many there are (0), which is 128 less the
 * bits of all fields, then 1 where any of them is set, else 0 (1). A void extent has none: 0, 0. The writer below sets none.
 * Answers 0, or the block's fault in float16 (11, 12, 14 to 19) or the refusal 1 or 4, all 107 and 2 numbers being 0 then. Where numbers is not
 * of 107 numbers or spare not of 2 it answers 1, 4 or else 5, and leaves both as they were. */
uint8_t stallbrook_astc_read_symbolic(uint8_t footprint, const uint8_t *block, size_t block_len, uint16_t *numbers, size_t numbers_len,
    uint16_t *spare, size_t spare_len);

/* The block of a symbolic block, with the smallest codes and spare bits 0, and where two block modes say the same (volumes: 6x2x2 and its turns, one
 * plane, the six low ranges) the smaller: 107 numbers in the order above, whatever they are, to 16 bytes.
 * Answers 0, or the first refusal in the order 1, 4 (block not of 16 bytes), 5 (numbers not of 107), 31, 32, 14 to 17, 33, 18 to 20, 34, 35
 * (with mark 1: 1, 4, 5, 31, 12). On every refusal block is 16 zeros when it has 16 bytes, also where numbers has a wrong length; a block of
 * another length is left as it was. */
uint8_t stallbrook_astc_write_symbolic(uint8_t footprint, const uint16_t *numbers, size_t numbers_len, uint8_t *block, size_t block_len);

/* ---- Best grey captions: 4x4 blocks of one partition, one plane, endpoint mode 0, grid 4x4 and weights 0..3 between two grey ends e0 and e1,
 * which the writer above writes. Every weight is the one whose grey in srgb8 is nearest to the wanted grey of its texel, the smaller among
 * equals: no choice of weights has a smaller summed squared difference. A wanted grey changes the two bits of its own texel's weight alone. */

/* The block of 16 wanted greys, rows first. Answers 0, or 4 where block is not of 16 bytes, then 5 where there are not 16 greys: nothing is
 * written. With these lengths every input has a block. */
uint8_t stallbrook_astc_caption_block(uint8_t e0, uint8_t e1, const uint8_t *wanted, size_t wanted_len, uint8_t *block, size_t block_len);

/* The blocks of an image, in raster order, 16 bytes each, one wanted grey for each texel of width x height. Beyond the image an edge block takes
 * the nearest wanted grey, which changes no texel that is shown.
 * Answers 0, or the refusal 3, 4 or 5, which leaves blocks as they were. */
uint8_t stallbrook_astc_caption_image(uint8_t e0, uint8_t e1, uint32_t width, uint32_t height, const uint8_t *wanted, size_t wanted_len,
    uint8_t *blocks, size_t blocks_len);

/* A PVRTC1 image of 4 bits per pixel: words of 8 bytes in reflected Morton order, one for each 4 x 4 texels, to 4 bytes R, G, B, A for each
 * texel, rows first, without sRGB curve. At the edges neighbours are those of the opposite side.
 * Answers 0, or the refusal 61, 4 or 5, which leaves out as it was. */
uint8_t stallbrook_pvrtc_decode_image(uint32_t width, uint32_t height, const uint8_t *words, size_t words_len, uint8_t *out, size_t out_len);

/* ---- Clips: frames of blocks that arrive in pieces of any size.
 *
 * A clip is the version byte 1 and frames. A frame is ten bytes, numbers with the high byte first, and its blocks: a length of 4 bytes, of the
 * rest, which is 6 plus 16 for each block; footprint and kind (0 unorm16, 1 srgb8, 2 float16), a byte each; width and height, 2 bytes each.
 *
 * Refusals of a clip that is read, told at the byte that shows them:
 *   51 another version; at the first byte
 *    1 footprint above 13, 2 kind above 2, 3 a side is 0 or above 16384, 52 a wrong length, the first that holds; at a frame's tenth byte
 *   53 the end inside a frame or before the version byte; told by stallbrook_clip_finish
 * After a refusal, and after the end, nothing is taken until a fresh start and the same number is told again.
 *
 * The reader's state is a list of 26 numbers that the caller keeps and lends. What they are need not be known; every content is taken, one that
 * no call has written too. */

/* A fresh start. Answers 0, or 5 where state is not of 26 numbers, which are then as they were. */
uint8_t stallbrook_clip_start(uint32_t *state, size_t state_len);

/* Feeds a piece, which may be empty. A feed stops at the byte that completes a block or a refusal; feed the rest of the piece anew.
 * Answers the refusal that is told, else 0. block is of 16 bytes: the block that is handed out, else zeros. told is of 8 numbers: how many
 * bytes were taken, 1 where a block is handed out and else 0, the block's frame index (modulo 2^32) and its index in the frame,
 * and footprint, kind, width and height of its frame.
 * Where nothing is handed out or refused, the piece is used up. After the end was told as 0 a feed takes nothing and answers 0: a loop that
 * waits until a piece is used up must not be entered after stallbrook_clip_finish.
 * Where state, block or told is not of 26, 16 or 8 it answers 5 and leaves them as they were. */
uint8_t stallbrook_clip_feed(uint32_t *state, size_t state_len, const uint8_t *piece, size_t piece_len, uint8_t *block, size_t block_len,
    uint64_t *told, size_t told_len);

/* Says that the clip is finished. Answers 0, 53 inside a frame or before the version byte, or the refusal that was told; 5 where state is not of
 * 26 numbers, which are then as they were. */
uint8_t stallbrook_clip_finish(uint32_t *state, size_t state_len);

/* The bytes of a frame, for after the caller's version byte or another frame: ten bytes and the blocks.
 * Answers 0, or the refusal, which leaves out as it was: 1, 2, 3, 4 where blocks are not exactly 16 bytes for each block of the image, 5 where
 * out is not exactly 10 bytes longer. */
uint8_t stallbrook_clip_write_frame(uint8_t footprint, uint8_t kind, uint32_t width, uint32_t height, const uint8_t *blocks, size_t blocks_len,
    uint8_t *out, size_t out_len);

/* ---- .astc files: a header of 16 bytes, then the blocks in raster order. The header is 13 AB A1 5C, a byte each for the block's width, height
 * and depth, and three sizes of 3 bytes, low byte first; depth and third size are 1.
 *
 * Refusals of a file, the first that holds:
 *   41 fewer than 16 bytes
 *   42 another start
 *   43 a footprint that is not in the list, or a depth or third size other than 1
 *    3 a side is 0 or above 16384
 *    4 what is behind the header is not exactly 16 bytes for each block
 *    5 the call's other lists, as in the image calls */

/* What the header of a file says, which is lent whole, as 3 numbers: footprint, width, height. The blocks are the bytes from file + 16 on.
 * Answers 0, or the refusal 41, 42, 43, 3 or 4, and the numbers are all 0. A list of another length is refused by 5, after these, and left
 * as it was. */
uint8_t stallbrook_astc_read_header(const uint8_t *file, size_t file_len, uint32_t *header, size_t header_len);

/* The 16 bytes of a file's header; its blocks come behind them.
 * Answers 0, or the refusal 1 or 3, and the bytes are all 0. A list of another length is refused by 5, after these, and left as it was. */
uint8_t stallbrook_astc_write_header(uint8_t footprint, uint32_t width, uint32_t height, uint8_t *header, size_t header_len);

/* The texels of a whole file: out and tally as in the image calls.
 * Answers 0, or the refusal 41, 42, 43, 3, 4 or 5, which leaves out as it was. */
uint8_t stallbrook_astc_decode_file_unorm16(const uint8_t *file, size_t file_len, uint16_t *out, size_t out_len, uint64_t *tally, size_t tally_len);
uint8_t stallbrook_astc_decode_file_srgb8(const uint8_t *file, size_t file_len, uint8_t *out, size_t out_len, uint64_t *tally, size_t tally_len);
uint8_t stallbrook_astc_decode_file_float16(const uint8_t *file, size_t file_len, uint16_t *out, size_t out_len, uint64_t *tally, size_t tally_len);

/* ---- One agreed form of each block: strict reading, and the canonical form.
 *
 * Many blocks read as the same symbolic block (set spare bits, larger codes of trit or quint groups, the larger of two block modes); exactly one of them is what
 * stallbrook_astc_write_symbolic makes, the canonical one. The strict calls tell any other block by fault 21, the last of the list, which shows the
 * error colour, is counted in a tally and gives zeros for a symbolic block, as every fault. In all else they are the calls without `strict`.
 * Files of other encoders hold blocks that are not canonical: rewrite them first. */
uint8_t stallbrook_astc_strict_decode_block_unorm16(uint8_t footprint, const uint8_t *block, size_t block_len, uint16_t *out, size_t out_len);
uint8_t stallbrook_astc_strict_decode_block_srgb8(uint8_t footprint, const uint8_t *block, size_t block_len, uint8_t *out, size_t out_len);
uint8_t stallbrook_astc_strict_decode_block_float16(uint8_t footprint, const uint8_t *block, size_t block_len, uint16_t *out, size_t out_len);
uint8_t stallbrook_astc_strict_decode_image_unorm16(uint8_t footprint, uint32_t width, uint32_t height, const uint8_t *blocks, size_t blocks_len,
    uint16_t *out, size_t out_len, uint64_t *tally, size_t tally_len);
uint8_t stallbrook_astc_strict_decode_image_srgb8(uint8_t footprint, uint32_t width, uint32_t height, const uint8_t *blocks, size_t blocks_len,
    uint8_t *out, size_t out_len, uint64_t *tally, size_t tally_len);
uint8_t stallbrook_astc_strict_decode_image_float16(uint8_t footprint, uint32_t width, uint32_t height, const uint8_t *blocks, size_t blocks_len,
    uint16_t *out, size_t out_len, uint64_t *tally, size_t tally_len);
uint8_t stallbrook_astc_strict_decode_volume_unorm16(uint8_t footprint, uint32_t width, uint32_t height, uint32_t depth, const uint8_t *blocks,
    size_t blocks_len, uint16_t *out, size_t out_len, uint64_t *tally, size_t tally_len);
uint8_t stallbrook_astc_strict_decode_volume_srgb8(uint8_t footprint, uint32_t width, uint32_t height, uint32_t depth, const uint8_t *blocks,
    size_t blocks_len, uint8_t *out, size_t out_len, uint64_t *tally, size_t tally_len);
uint8_t stallbrook_astc_strict_decode_volume_float16(uint8_t footprint, uint32_t width, uint32_t height, uint32_t depth, const uint8_t *blocks,
    size_t blocks_len, uint16_t *out, size_t out_len, uint64_t *tally, size_t tally_len);
uint8_t stallbrook_astc_strict_image_faults(uint8_t footprint, uint8_t kind, uint32_t width, uint32_t height, const uint8_t *blocks,
                                            size_t blocks_len, uint8_t *faults, size_t faults_len, uint64_t *tally, size_t tally_len);
uint8_t stallbrook_astc_strict_read_symbolic(uint8_t footprint, const uint8_t *block, size_t block_len, uint16_t *numbers, size_t numbers_len,
    uint16_t *spare, size_t spare_len);

/* The canonical form of a block, 16 bytes: it shows the same texels in every kind. Answers 0; or the fault (of float16's list), and the block is
 * copied as it is; or the refusal 1, 4 or 5 (out is not of 16 bytes), which leaves out as it was. */
uint8_t stallbrook_astc_canonical_block(uint8_t footprint, const uint8_t *block, size_t block_len, uint8_t *out, size_t out_len);

/* The same of all blocks of an image, into a buffer of as many bytes, or in place. Answers 0, or the refusal 1, 3, 4 or 5 (out has another length),
 * which leaves the buffer as it was. tally is as in the image calls: blocks with a fault (of float16's list) are counted, and left as they are. */
uint8_t stallbrook_astc_canonical_image(uint8_t footprint, uint32_t width, uint32_t height, const uint8_t *blocks, size_t blocks_len,
    uint8_t *out, size_t out_len, uint64_t *tally, size_t tally_len);
uint8_t stallbrook_astc_canonical_in_place(uint8_t footprint, uint32_t width, uint32_t height, uint8_t *blocks, size_t blocks_len,
    uint64_t *tally, size_t tally_len);

/* ---- BC7 (BPTC RGBA): blocks of 16 bytes, 4x4 texels of 4 bytes each (R, G, B, A, rows first).
 * 71 is a block's fault: a first byte of 0. 72 and 73 are refusals of a sheet: a mode above 7; then a field or an anchor index beyond its
 * bits in that mode, or an unused one not 0. */

/* A block's texels: 16 bytes to 64. Answers 0; 71, and all 64 bytes are 0; or 4, then 5, which leave out as it was. */
uint8_t stallbrook_bc7_decode_block(const uint8_t *block, size_t block_len, uint8_t *out, size_t out_len);

/* A picture's texels: blocks in raster order, 16 bytes each, to 4 bytes for each texel of width x height; edge blocks are cropped.
 * Answers 0, or the refusal 3 (a side is 0 or above 16384), 4 or 5, which leaves out as it was. tally is of 3 numbers, as in the ASTC image
 * calls: the count of blocks with fault 71, and the raster index and the fault of the first one; all 0 on a refusal. A tally of another length
 * is refused by 5, after 3 and 4, and nothing at all is written. */
uint8_t stallbrook_bc7_decode_image(uint32_t width, uint32_t height, const uint8_t *blocks, size_t blocks_len, uint8_t *out, size_t out_len,
    uint64_t *tally, size_t tally_len);

/* A block's sheet: its fields as stored and in the block's order, as 60 numbers. With their places: mode (0), partition (1), rotation (2),
 * index selection (3), 18 endpoints (4 to 21: red of the first subset's two ends, of the second's, of the third's, then green, blue and
 * alpha alike), 6 P bits (22 to 27), 16 primary (28 to 43) and 16 secondary indices (44 to 59); those that the mode lacks are 0.
 * Answers 0, or 4 or 71, and the numbers are all 0 (a sheet of zeros is acceptable here: the answer alone tells). A list of another length
 * is refused by 5, after 4, and left as it was. */
uint8_t stallbrook_bc7_read_symbolic(const uint8_t *block, size_t block_len, uint8_t *numbers, size_t numbers_len);

/* The block of a sheet. Answers 0, or 72 or 73, and the block is 16 zeros. 4 where block is not of 16 bytes, then 5 where there are not 60
 * numbers: nothing is written. Reading and writing are inverse on blocks without fault. */
uint8_t stallbrook_bc7_write_symbolic(const uint8_t *numbers, size_t numbers_len, uint8_t *block, size_t block_len);

#ifdef __cplusplus
}
#endif

#endif

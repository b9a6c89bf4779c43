/* The words of refusals and faults, and the library's version. Ordinary C: nothing of it is proved, and no proved call uses it. */
#include "stallbrook.h"

const char *stallbrook_version(void) { return STALLBROOK_VERSION; }

const char *stallbrook_text(uint8_t number)
{
    switch (number) {
    case STALLBROOK_DONE: return "no refusal and no fault";
    case STALLBROOK_REFUSED_FOOTPRINT: return "the footprint is above 23, or above 13 where only flat ones are taken";
    case STALLBROOK_REFUSED_KIND: return "the kind is above 2";
    case STALLBROOK_REFUSED_SIDE: return "a side is 0 or above 16,384, or a volume's depth is 0 or above 2,048";
    case STALLBROOK_REFUSED_BLOCKS: return "the blocks' bytes are not exactly 16 for each block (PVRTC1: 8 for each word)";
    case STALLBROOK_REFUSED_LENGTH: return "a list is not exactly as long as said";
    case STALLBROOK_FAULT_RESERVED: return "the block mode is reserved";
    case STALLBROOK_FAULT_VOID_EXTENT: return "a void extent has bad bits or extents";
    case STALLBROOK_FAULT_HDR_VOID_EXTENT: return "an HDR void extent, which half floats alone show";
    case STALLBROOK_FAULT_GRID: return "the weight grid is larger than the footprint";
    case STALLBROOK_FAULT_WEIGHTS: return "there are more than 64 weights";
    case STALLBROOK_FAULT_WEIGHT_BITS: return "the weights' bits are below 24 or above 96";
    case STALLBROOK_FAULT_PLANES: return "there are two planes with four partitions";
    case STALLBROOK_FAULT_ENDPOINTS: return "there are more than 18 endpoint numbers";
    case STALLBROOK_FAULT_ENDPOINT_BITS: return "there are too few bits for the endpoint numbers";
    case STALLBROOK_FAULT_HDR_MODE:
        return "an HDR endpoint mode, which half floats alone show (symbolic block: with a clear HDR mark)";
    case STALLBROOK_FAULT_NOT_CANONICAL: return "the block is not the one that the writer makes from its own symbolic block";
    case STALLBROOK_REFUSED_FIELD: return "a field is outside its limits, or an unused one is not 0";
    case STALLBROOK_REFUSED_BLOCK_MODE: return "no block mode has this grid, range and planes";
    case STALLBROOK_REFUSED_SELECTOR: return "the endpoint modes do not fit the selector";
    case STALLBROOK_REFUSED_RANGE: return "an endpoint number or weight is above its range, or an unused one is not 0";
    case STALLBROOK_REFUSED_HDR_MARK: return "the HDR mark is set, and no partition's endpoint mode is HDR";
    case STALLBROOK_REFUSED_FILE_SHORT: return "the file has fewer than 16 bytes";
    case STALLBROOK_REFUSED_FILE_START: return "the file does not begin as .astc files do";
    case STALLBROOK_REFUSED_FILE_FOOTPRINT:
        return "the file's footprint is not in the list, or its depth or third size is not 1";
    case STALLBROOK_REFUSED_PLACE: return "the texel is outside the image, or the image is refused";
    case STALLBROOK_REFUSED_CLIP_VERSION: return "the clip is of another version";
    case STALLBROOK_REFUSED_FRAME_LENGTH: return "a frame's length is not 6 plus 16 for each block";
    case STALLBROOK_REFUSED_CLIP_END: return "the clip ends inside a frame or before its version byte";
    case STALLBROOK_REFUSED_PVRTC_SIDE: return "a side is not a power of two from 4 to 4,096";
    case STALLBROOK_FAULT_BC7_RESERVED: return "a BC7 block's first byte is 0";
    case STALLBROOK_REFUSED_BC7_MODE: return "the BC7 sheet's mode is above 7";
    case STALLBROOK_REFUSED_BC7_FIELD:
        return "a BC7 field or anchor index is beyond its bits in that mode, or an unused one is not 0";
    default: return "a number that no call answers";
    }
}

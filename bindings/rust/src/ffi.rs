//! The C interface as the archive exports it. A slice crosses as pointer and length.

unsafe extern "C" {
    /// Text that ends with 0 and is never freed.
    pub fn stallbrook_text(number: u8) -> *const std::ffi::c_char;
    pub fn stallbrook_version() -> *const std::ffi::c_char;

    /// 0 (no fault), 11..20 (the block's fault; not 13 or 20 in float16), or 1, 4, 5 (refused, nothing written).
    pub fn stallbrook_astc_decode_block_unorm16(
        footprint: u8, block: *const u8, block_len: usize, out: *mut u16, out_len: usize,
    ) -> u8;
    pub fn stallbrook_astc_decode_block_srgb8(
        footprint: u8, block: *const u8, block_len: usize, out: *mut u8, out_len: usize,
    ) -> u8;
    pub fn stallbrook_astc_decode_block_float16(
        footprint: u8, block: *const u8, block_len: usize, out: *mut u16, out_len: usize,
    ) -> u8;

    /// 0 or 1, 3, 4, 5. Tally, of 3 numbers: count of faulty blocks, raster index and fault of the first; zeros on a refusal. A tally of
    /// another length: 1, 3, 4 or 5, nothing written.
    pub fn stallbrook_astc_decode_image_unorm16(
        footprint: u8, width: u32, height: u32, blocks: *const u8, blocks_len: usize, out: *mut u16, out_len: usize,
        tally: *mut u64, tally_len: usize,
    ) -> u8;
    pub fn stallbrook_astc_decode_image_srgb8(
        footprint: u8, width: u32, height: u32, blocks: *const u8, blocks_len: usize, out: *mut u8, out_len: usize,
        tally: *mut u64, tally_len: usize,
    ) -> u8;
    pub fn stallbrook_astc_decode_image_float16(
        footprint: u8, width: u32, height: u32, blocks: *const u8, blocks_len: usize, out: *mut u16, out_len: usize,
        tally: *mut u64, tally_len: usize,
    ) -> u8;

    /// 0 or 1, 3, 4, 5; blocks and texels x fastest, then y, then z. Tally as above.
    pub fn stallbrook_astc_decode_volume_unorm16(
        footprint: u8, width: u32, height: u32, depth: u32, blocks: *const u8, blocks_len: usize, out: *mut u16,
        out_len: usize, tally: *mut u64, tally_len: usize,
    ) -> u8;
    pub fn stallbrook_astc_decode_volume_srgb8(
        footprint: u8, width: u32, height: u32, depth: u32, blocks: *const u8, blocks_len: usize, out: *mut u8,
        out_len: usize, tally: *mut u64, tally_len: usize,
    ) -> u8;
    pub fn stallbrook_astc_decode_volume_float16(
        footprint: u8, width: u32, height: u32, depth: u32, blocks: *const u8, blocks_len: usize, out: *mut u16,
        out_len: usize, tally: *mut u64, tally_len: usize,
    ) -> u8;

    /// 0 or 1, 2, 3, 4, 5; one byte for each block, its fault or 0. Tally as above.
    pub fn stallbrook_astc_image_faults(
        footprint: u8, kind: u8, width: u32, height: u32, blocks: *const u8, blocks_len: usize, faults: *mut u8,
        faults_len: usize, tally: *mut u64, tally_len: usize,
    ) -> u8;

    /// Sizes, 0 where a footprint or a side is refused.
    pub fn stallbrook_astc_image_blocks(footprint: u8, width: u32, height: u32) -> u64;
    pub fn stallbrook_astc_image_numbers(width: u32, height: u32) -> u64;
    pub fn stallbrook_astc_volume_blocks(footprint: u8, width: u32, height: u32, depth: u32) -> u64;
    pub fn stallbrook_astc_volume_numbers(width: u32, height: u32, depth: u32) -> u64;
    pub fn stallbrook_astc_block_numbers(footprint: u8) -> u32;

    /// 0, a fault of float16, or 1, 4; the 107 numbers and the two of the spare bits are all 0 unless it answers 0. 5 where there are not 107
    /// and 2, nothing written.
    pub fn stallbrook_astc_read_symbolic(
        footprint: u8, block: *const u8, block_len: usize, numbers: *mut u16, numbers_len: usize, spare: *mut u16,
        spare_len: usize,
    ) -> u8;

    /// 0 or the first refusal; the 16 bytes are all 0 unless it answers 0. Where there are not 16 bytes or not 107 numbers, 1, 4 or 5,
    /// nothing written.
    pub fn stallbrook_astc_write_symbolic(
        footprint: u8, numbers: *const u16, numbers_len: usize, block: *mut u8, block_len: usize,
    ) -> u8;

    /// The strict reading (02, b): as the calls without strict, and 21.
    pub fn stallbrook_astc_strict_decode_block_unorm16(
        footprint: u8, block: *const u8, block_len: usize, out: *mut u16, out_len: usize,
    ) -> u8;
    pub fn stallbrook_astc_strict_decode_block_srgb8(
        footprint: u8, block: *const u8, block_len: usize, out: *mut u8, out_len: usize,
    ) -> u8;
    pub fn stallbrook_astc_strict_decode_block_float16(
        footprint: u8, block: *const u8, block_len: usize, out: *mut u16, out_len: usize,
    ) -> u8;
    pub fn stallbrook_astc_strict_decode_image_unorm16(
        footprint: u8, width: u32, height: u32, blocks: *const u8, blocks_len: usize, out: *mut u16, out_len: usize,
        tally: *mut u64, tally_len: usize,
    ) -> u8;
    pub fn stallbrook_astc_strict_decode_image_srgb8(
        footprint: u8, width: u32, height: u32, blocks: *const u8, blocks_len: usize, out: *mut u8, out_len: usize,
        tally: *mut u64, tally_len: usize,
    ) -> u8;
    pub fn stallbrook_astc_strict_decode_image_float16(
        footprint: u8, width: u32, height: u32, blocks: *const u8, blocks_len: usize, out: *mut u16, out_len: usize,
        tally: *mut u64, tally_len: usize,
    ) -> u8;
    pub fn stallbrook_astc_strict_decode_volume_unorm16(
        footprint: u8, width: u32, height: u32, depth: u32, blocks: *const u8, blocks_len: usize, out: *mut u16,
        out_len: usize, tally: *mut u64, tally_len: usize,
    ) -> u8;
    pub fn stallbrook_astc_strict_decode_volume_srgb8(
        footprint: u8, width: u32, height: u32, depth: u32, blocks: *const u8, blocks_len: usize, out: *mut u8,
        out_len: usize, tally: *mut u64, tally_len: usize,
    ) -> u8;
    pub fn stallbrook_astc_strict_decode_volume_float16(
        footprint: u8, width: u32, height: u32, depth: u32, blocks: *const u8, blocks_len: usize, out: *mut u16,
        out_len: usize, tally: *mut u64, tally_len: usize,
    ) -> u8;
    pub fn stallbrook_astc_strict_image_faults(
        footprint: u8, kind: u8, width: u32, height: u32, blocks: *const u8, blocks_len: usize, faults: *mut u8,
        faults_len: usize, tally: *mut u64, tally_len: usize,
    ) -> u8;
    pub fn stallbrook_astc_strict_read_symbolic(
        footprint: u8, block: *const u8, block_len: usize, numbers: *mut u16, numbers_len: usize, spare: *mut u16,
        spare_len: usize,
    ) -> u8;

    /// 0, a fault of float16 with the block as it is, or 1, 4, 5.
    pub fn stallbrook_astc_canonical_block(
        footprint: u8, block: *const u8, block_len: usize, out: *mut u8, out_len: usize,
    ) -> u8;
    /// 0 or 1, 3, 4, 5. Tally as above.
    pub fn stallbrook_astc_canonical_image(
        footprint: u8, width: u32, height: u32, blocks: *const u8, blocks_len: usize, out: *mut u8, out_len: usize,
        tally: *mut u64, tally_len: usize,
    ) -> u8;
    pub fn stallbrook_astc_canonical_in_place(
        footprint: u8, width: u32, height: u32, blocks: *mut u8, blocks_len: usize, tally: *mut u64, tally_len: usize,
    ) -> u8;

    /// Clips. 0, or 5 where there are not 26 numbers, nothing written.
    pub fn stallbrook_clip_start(state: *mut u32, state_len: usize) -> u8;

    /// The number told, 0 for none. Told, of 8 numbers: bytes taken, whether a block is handed out, frame index, block index, and the
    /// frame's footprint, kind, width and height. The 16 bytes are the block's, else 0. 5 where a length is wrong, nothing written.
    pub fn stallbrook_clip_feed(
        state: *mut u32, state_len: usize, piece: *const u8, piece_len: usize, block: *mut u8, block_len: usize,
        told: *mut u64, told_len: usize,
    ) -> u8;

    /// The number told, or 5 where there are not 26 numbers, nothing written.
    pub fn stallbrook_clip_finish(state: *mut u32, state_len: usize) -> u8;

    /// 0 or 1 to 5, nothing written.
    pub fn stallbrook_clip_write_frame(
        footprint: u8, kind: u8, width: u32, height: u32, blocks: *const u8, blocks_len: usize, out: *mut u8,
        out_len: usize,
    ) -> u8;
}

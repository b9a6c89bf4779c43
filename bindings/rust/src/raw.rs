//! The calls over slices, with plain numbers: 0, a refusal's or a fault's. `stallbrook.h` says what each takes and leaves.

#![allow(missing_docs)]

use crate::ffi;

pub fn decode_block_unorm16(footprint: u8, block: &[u8], out: &mut [u16]) -> u8 {
    unsafe {
        ffi::stallbrook_astc_decode_block_unorm16(footprint, block.as_ptr(), block.len(), out.as_mut_ptr(), out.len())
    }
}

pub fn decode_block_srgb8(footprint: u8, block: &[u8], out: &mut [u8]) -> u8 {
    unsafe {
        ffi::stallbrook_astc_decode_block_srgb8(footprint, block.as_ptr(), block.len(), out.as_mut_ptr(), out.len())
    }
}

pub fn decode_block_float16(footprint: u8, block: &[u8], out: &mut [u16]) -> u8 {
    unsafe {
        ffi::stallbrook_astc_decode_block_float16(footprint, block.as_ptr(), block.len(), out.as_mut_ptr(), out.len())
    }
}

pub fn decode_image_unorm16(
    footprint: u8, width: u32, height: u32, blocks: &[u8], out: &mut [u16], tally: &mut [u64],
) -> u8 {
    unsafe {
        ffi::stallbrook_astc_decode_image_unorm16(
            footprint,
            width,
            height,
            blocks.as_ptr(),
            blocks.len(),
            out.as_mut_ptr(),
            out.len(),
            tally.as_mut_ptr(),
            tally.len(),
        )
    }
}

pub fn decode_image_srgb8(
    footprint: u8, width: u32, height: u32, blocks: &[u8], out: &mut [u8], tally: &mut [u64],
) -> u8 {
    unsafe {
        ffi::stallbrook_astc_decode_image_srgb8(
            footprint,
            width,
            height,
            blocks.as_ptr(),
            blocks.len(),
            out.as_mut_ptr(),
            out.len(),
            tally.as_mut_ptr(),
            tally.len(),
        )
    }
}

pub fn decode_image_float16(
    footprint: u8, width: u32, height: u32, blocks: &[u8], out: &mut [u16], tally: &mut [u64],
) -> u8 {
    unsafe {
        ffi::stallbrook_astc_decode_image_float16(
            footprint,
            width,
            height,
            blocks.as_ptr(),
            blocks.len(),
            out.as_mut_ptr(),
            out.len(),
            tally.as_mut_ptr(),
            tally.len(),
        )
    }
}

pub fn image_faults(
    footprint: u8, kind: u8, width: u32, height: u32, blocks: &[u8], faults: &mut [u8], tally: &mut [u64],
) -> u8 {
    unsafe {
        ffi::stallbrook_astc_image_faults(
            footprint,
            kind,
            width,
            height,
            blocks.as_ptr(),
            blocks.len(),
            faults.as_mut_ptr(),
            faults.len(),
            tally.as_mut_ptr(),
            tally.len(),
        )
    }
}

pub fn image_blocks(footprint: u8, width: u32, height: u32) -> u64 {
    unsafe { ffi::stallbrook_astc_image_blocks(footprint, width, height) }
}

pub fn image_numbers(width: u32, height: u32) -> u64 {
    unsafe { ffi::stallbrook_astc_image_numbers(width, height) }
}

pub fn volume_blocks(footprint: u8, width: u32, height: u32, depth: u32) -> u64 {
    unsafe { ffi::stallbrook_astc_volume_blocks(footprint, width, height, depth) }
}

pub fn volume_numbers(width: u32, height: u32, depth: u32) -> u64 {
    unsafe { ffi::stallbrook_astc_volume_numbers(width, height, depth) }
}

pub fn block_numbers(footprint: u8) -> u32 {
    unsafe { ffi::stallbrook_astc_block_numbers(footprint) }
}

// ---- volumes, in both readings

macro_rules! volume {
    ($name:ident, $call:ident, $number:ty) => {
        pub fn $name(
            footprint: u8, width: u32, height: u32, depth: u32, blocks: &[u8], out: &mut [$number], tally: &mut [u64],
        ) -> u8 {
            unsafe {
                ffi::$call(
                    footprint,
                    width,
                    height,
                    depth,
                    blocks.as_ptr(),
                    blocks.len(),
                    out.as_mut_ptr(),
                    out.len(),
                    tally.as_mut_ptr(),
                    tally.len(),
                )
            }
        }
    };
}

volume!(decode_volume_unorm16, stallbrook_astc_decode_volume_unorm16, u16);
volume!(decode_volume_srgb8, stallbrook_astc_decode_volume_srgb8, u8);
volume!(decode_volume_float16, stallbrook_astc_decode_volume_float16, u16);
volume!(strict_decode_volume_unorm16, stallbrook_astc_strict_decode_volume_unorm16, u16);
volume!(strict_decode_volume_srgb8, stallbrook_astc_strict_decode_volume_srgb8, u8);
volume!(strict_decode_volume_float16, stallbrook_astc_strict_decode_volume_float16, u16);

// ---- symbolic blocks

pub fn read_symbolic(footprint: u8, block: &[u8], numbers: &mut [u16], spare: &mut [u16]) -> u8 {
    unsafe {
        ffi::stallbrook_astc_read_symbolic(
            footprint,
            block.as_ptr(),
            block.len(),
            numbers.as_mut_ptr(),
            numbers.len(),
            spare.as_mut_ptr(),
            spare.len(),
        )
    }
}

pub fn write_symbolic(footprint: u8, numbers: &[u16], block: &mut [u8]) -> u8 {
    unsafe {
        ffi::stallbrook_astc_write_symbolic(footprint, numbers.as_ptr(), numbers.len(), block.as_mut_ptr(), block.len())
    }
}

// ---- strict reading and canonical form

pub fn strict_decode_block_unorm16(footprint: u8, block: &[u8], out: &mut [u16]) -> u8 {
    unsafe {
        ffi::stallbrook_astc_strict_decode_block_unorm16(
            footprint,
            block.as_ptr(),
            block.len(),
            out.as_mut_ptr(),
            out.len(),
        )
    }
}

pub fn strict_decode_block_srgb8(footprint: u8, block: &[u8], out: &mut [u8]) -> u8 {
    unsafe {
        ffi::stallbrook_astc_strict_decode_block_srgb8(
            footprint,
            block.as_ptr(),
            block.len(),
            out.as_mut_ptr(),
            out.len(),
        )
    }
}

pub fn strict_decode_block_float16(footprint: u8, block: &[u8], out: &mut [u16]) -> u8 {
    unsafe {
        ffi::stallbrook_astc_strict_decode_block_float16(
            footprint,
            block.as_ptr(),
            block.len(),
            out.as_mut_ptr(),
            out.len(),
        )
    }
}

pub fn strict_decode_image_unorm16(
    footprint: u8, width: u32, height: u32, blocks: &[u8], out: &mut [u16], tally: &mut [u64],
) -> u8 {
    unsafe {
        ffi::stallbrook_astc_strict_decode_image_unorm16(
            footprint,
            width,
            height,
            blocks.as_ptr(),
            blocks.len(),
            out.as_mut_ptr(),
            out.len(),
            tally.as_mut_ptr(),
            tally.len(),
        )
    }
}

pub fn strict_decode_image_srgb8(
    footprint: u8, width: u32, height: u32, blocks: &[u8], out: &mut [u8], tally: &mut [u64],
) -> u8 {
    unsafe {
        ffi::stallbrook_astc_strict_decode_image_srgb8(
            footprint,
            width,
            height,
            blocks.as_ptr(),
            blocks.len(),
            out.as_mut_ptr(),
            out.len(),
            tally.as_mut_ptr(),
            tally.len(),
        )
    }
}

pub fn strict_decode_image_float16(
    footprint: u8, width: u32, height: u32, blocks: &[u8], out: &mut [u16], tally: &mut [u64],
) -> u8 {
    unsafe {
        ffi::stallbrook_astc_strict_decode_image_float16(
            footprint,
            width,
            height,
            blocks.as_ptr(),
            blocks.len(),
            out.as_mut_ptr(),
            out.len(),
            tally.as_mut_ptr(),
            tally.len(),
        )
    }
}

pub fn strict_image_faults(
    footprint: u8, kind: u8, width: u32, height: u32, blocks: &[u8], out: &mut [u8], tally: &mut [u64],
) -> u8 {
    unsafe {
        ffi::stallbrook_astc_strict_image_faults(
            footprint,
            kind,
            width,
            height,
            blocks.as_ptr(),
            blocks.len(),
            out.as_mut_ptr(),
            out.len(),
            tally.as_mut_ptr(),
            tally.len(),
        )
    }
}

pub fn strict_read_symbolic(footprint: u8, block: &[u8], numbers: &mut [u16], spare: &mut [u16]) -> u8 {
    unsafe {
        ffi::stallbrook_astc_strict_read_symbolic(
            footprint,
            block.as_ptr(),
            block.len(),
            numbers.as_mut_ptr(),
            numbers.len(),
            spare.as_mut_ptr(),
            spare.len(),
        )
    }
}

pub fn canonical_block(footprint: u8, block: &[u8], out: &mut [u8]) -> u8 {
    unsafe { ffi::stallbrook_astc_canonical_block(footprint, block.as_ptr(), block.len(), out.as_mut_ptr(), out.len()) }
}

pub fn canonical_image(footprint: u8, width: u32, height: u32, blocks: &[u8], out: &mut [u8], tally: &mut [u64]) -> u8 {
    unsafe {
        ffi::stallbrook_astc_canonical_image(
            footprint,
            width,
            height,
            blocks.as_ptr(),
            blocks.len(),
            out.as_mut_ptr(),
            out.len(),
            tally.as_mut_ptr(),
            tally.len(),
        )
    }
}

pub fn canonical_in_place(footprint: u8, width: u32, height: u32, blocks: &mut [u8], tally: &mut [u64]) -> u8 {
    unsafe {
        ffi::stallbrook_astc_canonical_in_place(
            footprint,
            width,
            height,
            blocks.as_mut_ptr(),
            blocks.len(),
            tally.as_mut_ptr(),
            tally.len(),
        )
    }
}

// ---- clips

pub fn clip_start(state: &mut [u32]) -> u8 {
    unsafe { ffi::stallbrook_clip_start(state.as_mut_ptr(), state.len()) }
}

#[inline]
pub fn clip_feed(state: &mut [u32], piece: &[u8], block: &mut [u8], told: &mut [u64]) -> u8 {
    unsafe {
        ffi::stallbrook_clip_feed(
            state.as_mut_ptr(),
            state.len(),
            piece.as_ptr(),
            piece.len(),
            block.as_mut_ptr(),
            block.len(),
            told.as_mut_ptr(),
            told.len(),
        )
    }
}

pub fn clip_finish(state: &mut [u32]) -> u8 {
    unsafe { ffi::stallbrook_clip_finish(state.as_mut_ptr(), state.len()) }
}

pub fn clip_write_frame(footprint: u8, kind: u8, width: u32, height: u32, blocks: &[u8], out: &mut [u8]) -> u8 {
    unsafe {
        ffi::stallbrook_clip_write_frame(
            footprint,
            kind,
            width,
            height,
            blocks.as_ptr(),
            blocks.len(),
            out.as_mut_ptr(),
            out.len(),
        )
    }
}

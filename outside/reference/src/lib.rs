//! A second reader and writer of ASTC blocks (2D and 3D, LDR and HDR), written from the public documents only.
//!
//! Words: 01's "sheet" is a symbolic block here, its "solid" block a void extent,
//! its "widen" is unquantise (stored numbers) or expand (endpoints to 16 bits).

pub mod bc7;
mod block;
pub mod caption;
mod clip;
mod colour;
mod decode;
mod file;
pub mod hdr;
pub mod pvrtc;
pub mod random;
mod refusals;
mod sequence;
mod strict;
mod symbolic;
pub mod tables;
mod texel;

pub use block::fault;
pub use clip::{ClipBlock, ClipFrame, ParsedClip, clip_frame, parse_clip};
pub use decode::{
    decode, decode_f16, decode_image_f16, decode_image_u8, decode_image_u16, decode_u8, decode_u16, decode_volume_f16,
    decode_volume_u8, decode_volume_u16,
};
pub use file::{FileHeader, file_header, read_file};
pub use refusals::{block_refusal, image_refusal, read_refusal, view_refusal, volume_refusal};
pub use sequence::{Ending, bit_count, ending, present, unpack};
pub use strict::{canonical, strict_fault};
pub use symbolic::{NUMBERS, Spare, SymbolicBlock, endings, picture, read, read_spare, refusal, write};
pub use texel::ask;

/// Width and height of the flat footprints, 0 to 13.
#[rustfmt::skip]
pub const FOOTPRINTS: [(usize, usize); 14] = [
    (4, 4), (5, 4), (5, 5), (6, 5), (6, 6), (8, 5), (8, 6), (8, 8),
    (10, 5), (10, 6), (10, 8), (10, 10), (12, 10), (12, 12),
];

/// Width, height and depth of the volume footprints, 14 to 23.
#[rustfmt::skip]
pub const VOLUMES: [[usize; 3]; 10] = [
    [3, 3, 3], [4, 3, 3], [4, 4, 3], [4, 4, 4], [5, 4, 4], [5, 5, 4], [5, 5, 5], [6, 5, 5], [6, 6, 5], [6, 6, 6],
];

/// How many footprints there are.
pub const ALL_FOOTPRINTS: usize = FOOTPRINTS.len() + VOLUMES.len();

/// Footprints from 14 on.
pub const fn is_volume(footprint: usize) -> bool {
    footprint >= FOOTPRINTS.len()
}

/// Width, height and depth of any footprint; the depth of a flat one is 1.
pub const fn sides(footprint: usize) -> [usize; 3] {
    if is_volume(footprint) { sides_as::<true>(footprint) } else { sides_as::<false>(footprint) }
}

/// The same where it is known whether the footprint is a volume.
#[inline(always)]
const fn sides_as<const VOLUME: bool>(footprint: usize) -> [usize; 3] {
    if VOLUME {
        return VOLUMES[footprint - FOOTPRINTS.len()];
    }
    let (width, height) = FOOTPRINTS[footprint];
    [width, height, 1]
}

/// Texels of a block.
pub const fn texels(footprint: usize) -> usize {
    let [width, height, depth] = sides(footprint);
    width * height * depth
}

/// What a texel's numbers are.
#[derive(Clone, Copy, PartialEq, Eq, Debug)]
pub enum Kind {
    /// Kind 0: four 16-bit numbers.
    Unorm16,
    /// Kind 1: four bytes, before the sRGB curve.
    Srgb8,
    /// Kind 2: four half floats, as 16-bit patterns.
    Float16,
}

impl Kind {
    pub const ALL: [Kind; 3] = [Kind::Unorm16, Kind::Srgb8, Kind::Float16];

    /// Of a number, 0 to 2.
    pub fn of(number: u8) -> Option<Kind> {
        Kind::ALL.get(number as usize).copied()
    }

    /// HDR is taken: faults 13 and 20 don't exist.
    pub const fn takes_hdr(self) -> bool {
        matches!(self, Kind::Float16)
    }
}

/// What a picture call tells of faulty blocks: their count, index and fault of the first.
#[derive(Clone, Copy, PartialEq, Eq, Debug, Default)]
pub struct Tally {
    pub faulty: u64,
    pub first_index: u64,
    pub first_fault: u8,
}

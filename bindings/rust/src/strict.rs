//! The strict reading, and the one agreed form of a block.
//!
//! The calls of this module are those of the same names at the crate's root, with one fault more, [`Fault::NotCanonical`], last in order: a block
//! that has no other fault and is not what [`write_symbolic`](crate::write_symbolic) makes from its own settings. Of all blocks that read as one
//! [`SymbolicBlock`](crate::SymbolicBlock) exactly one passes. Encoders differ here: most files have blocks that do not pass, and
//! [`canonical_in_place`] rewrites a picture's blocks so that all without fault do, and show the same texels.
//!
//! ```
//! use stallbrook::{Fault, Footprint, strict};
//! // a block, and the same with a spare bit set: equal settings, equal texels
//! let agreed = [0x42, 0, 0, 0xFE, 1, 0, 0, 0, 0, 0, 0, 0, 0, 0, 0, 0x80];
//! let mut other = agreed;
//! other[5] = 1;
//! let mut texels = [0; 64];
//! assert_eq!(strict::decode_block_srgb8(Footprint::F4x4, &agreed, &mut texels)?, None);
//! assert_eq!(strict::decode_block_srgb8(Footprint::F4x4, &other, &mut texels)?, Some(Fault::NotCanonical));
//! assert_eq!(texels[..4], [255, 0, 255, 255]);
//! assert_eq!(strict::canonical_block(Footprint::F4x4, &other)?, (agreed, None));
//! # Ok::<(), stallbrook::Refusal>(())
//! ```

use crate::numbers::of_block;
use crate::{Error, Fault, Footprint, Kind, Refusal, SymbolicReading, Tally, raw};

/// A block's texels as four 16-bit numbers each.
///
/// ```
/// use stallbrook::{Fault, Footprint, strict};
/// let mut texels = [0u16; 64];
/// let other = [0x42, 0, 0, 0xFE, 1, 1, 0, 0, 0, 0, 0, 0, 0, 0, 0, 0x80];
/// let fault = strict::decode_block_unorm16(Footprint::F4x4, &other, &mut texels)?;
/// assert_eq!((fault, &texels[..4]), (Some(Fault::NotCanonical), &[65535, 0, 65535, 65535][..]));
/// # Ok::<(), stallbrook::Refusal>(())
/// ```
pub fn decode_block_unorm16(footprint: Footprint, block: &[u8], out: &mut [u16]) -> Result<Option<Fault>, Refusal> {
    of_block(raw::strict_decode_block_unorm16(footprint.number(), block, out))
}

/// A block's texels as four bytes each.
///
/// ```
/// use stallbrook::{Fault, Footprint, strict};
/// let mut texels = [0u8; 64];
/// let other = [0x42, 0, 0, 0xFE, 1, 1, 0, 0, 0, 0, 0, 0, 0, 0, 0, 0x80];
/// let fault = strict::decode_block_srgb8(Footprint::F4x4, &other, &mut texels)?;
/// assert_eq!((fault, &texels[..4]), (Some(Fault::NotCanonical), &[255, 0, 255, 255][..]));
/// # Ok::<(), stallbrook::Refusal>(())
/// ```
pub fn decode_block_srgb8(footprint: Footprint, block: &[u8], out: &mut [u8]) -> Result<Option<Fault>, Refusal> {
    of_block(raw::strict_decode_block_srgb8(footprint.number(), block, out))
}

/// A block's texels as four half floats each.
///
/// ```
/// use stallbrook::{Fault, Footprint, strict};
/// let mut texels = [0u16; 64];
/// let other = [0x42, 0, 0, 0xFE, 1, 1, 0, 0, 0, 0, 0, 0, 0, 0, 0, 0x80];
/// let fault = strict::decode_block_float16(Footprint::F4x4, &other, &mut texels)?;
/// assert_eq!((fault, &texels[..4]), (Some(Fault::NotCanonical), &[65535; 4][..]));
/// # Ok::<(), stallbrook::Refusal>(())
/// ```
pub fn decode_block_float16(footprint: Footprint, block: &[u8], out: &mut [u16]) -> Result<Option<Fault>, Refusal> {
    of_block(raw::strict_decode_block_float16(footprint.number(), block, out))
}

/// An image's texels as four 16-bit numbers each.
///
/// ```
/// use stallbrook::{Fault, Footprint, strict};
/// let mut texels = [0u16; 64];
/// let other = [0x42, 0, 0, 0xFE, 1, 1, 0, 0, 0, 0, 0, 0, 0, 0, 0, 0x80];
/// let tally = strict::decode_image_unorm16(Footprint::F4x4, 4, 4, &other, &mut texels)?;
/// assert_eq!(tally.first.map(|first| first.fault), Some(Fault::NotCanonical));
/// # Ok::<(), stallbrook::Refusal>(())
/// ```
pub fn decode_image_unorm16(
    footprint: Footprint, width: u32, height: u32, blocks: &[u8], out: &mut [u16],
) -> Result<Tally, Refusal> {
    let mut tally = [0; 3];
    let number = raw::strict_decode_image_unorm16(footprint.number(), width, height, blocks, out, &mut tally);
    Tally::told(number, tally)
}

/// An image's texels as four bytes each.
///
/// ```
/// use stallbrook::{Fault, Footprint, strict};
/// let mut texels = [0u8; 64];
/// let other = [0x42, 0, 0, 0xFE, 1, 1, 0, 0, 0, 0, 0, 0, 0, 0, 0, 0x80];
/// let tally = strict::decode_image_srgb8(Footprint::F4x4, 4, 4, &other, &mut texels)?;
/// assert_eq!(tally.first.map(|first| first.fault), Some(Fault::NotCanonical));
/// # Ok::<(), stallbrook::Refusal>(())
/// ```
pub fn decode_image_srgb8(
    footprint: Footprint, width: u32, height: u32, blocks: &[u8], out: &mut [u8],
) -> Result<Tally, Refusal> {
    let mut tally = [0; 3];
    let number = raw::strict_decode_image_srgb8(footprint.number(), width, height, blocks, out, &mut tally);
    Tally::told(number, tally)
}

/// An image's texels as four half floats each.
///
/// ```
/// use stallbrook::{Fault, Footprint, strict};
/// let mut texels = [0u16; 64];
/// let other = [0x42, 0, 0, 0xFE, 1, 1, 0, 0, 0, 0, 0, 0, 0, 0, 0, 0x80];
/// let tally = strict::decode_image_float16(Footprint::F4x4, 4, 4, &other, &mut texels)?;
/// assert_eq!(tally.first.map(|first| first.fault), Some(Fault::NotCanonical));
/// # Ok::<(), stallbrook::Refusal>(())
/// ```
pub fn decode_image_float16(
    footprint: Footprint, width: u32, height: u32, blocks: &[u8], out: &mut [u16],
) -> Result<Tally, Refusal> {
    let mut tally = [0; 3];
    let number = raw::strict_decode_image_float16(footprint.number(), width, height, blocks, out, &mut tally);
    Tally::told(number, tally)
}

/// A volume's texels as four 16-bit numbers each.
///
/// ```
/// use stallbrook::{Fault, Footprint, strict};
/// let mut texels = [0u16; 4 * 27];
/// let other = [0x13, 0, 0, 0xFE, 1, 1, 0, 0, 0, 0, 0, 0, 0, 0x5F, 0x63, 0x11];
/// let tally = strict::decode_volume_unorm16(Footprint::F3x3x3, 3, 3, 3, &other, &mut texels)?;
/// assert_eq!(tally.first.map(|first| first.fault), Some(Fault::NotCanonical));
/// # Ok::<(), stallbrook::Refusal>(())
/// ```
pub fn decode_volume_unorm16(
    footprint: Footprint, width: u32, height: u32, depth: u32, blocks: &[u8], out: &mut [u16],
) -> Result<Tally, Refusal> {
    let mut tally = [0; 3];
    let number = raw::strict_decode_volume_unorm16(footprint.number(), width, height, depth, blocks, out, &mut tally);
    Tally::told(number, tally)
}

/// A volume's texels as four bytes each.
///
/// ```
/// use stallbrook::{Fault, Footprint, strict};
/// let mut texels = [0u8; 4 * 27];
/// let other = [0x13, 0, 0, 0xFE, 1, 1, 0, 0, 0, 0, 0, 0, 0, 0x5F, 0x63, 0x11];
/// let tally = strict::decode_volume_srgb8(Footprint::F3x3x3, 3, 3, 3, &other, &mut texels)?;
/// assert_eq!(tally.first.map(|first| first.fault), Some(Fault::NotCanonical));
/// # Ok::<(), stallbrook::Refusal>(())
/// ```
pub fn decode_volume_srgb8(
    footprint: Footprint, width: u32, height: u32, depth: u32, blocks: &[u8], out: &mut [u8],
) -> Result<Tally, Refusal> {
    let mut tally = [0; 3];
    let number = raw::strict_decode_volume_srgb8(footprint.number(), width, height, depth, blocks, out, &mut tally);
    Tally::told(number, tally)
}

/// A volume's texels as four half floats each.
///
/// ```
/// use stallbrook::{Fault, Footprint, strict};
/// let mut texels = [0u16; 4 * 27];
/// let other = [0x13, 0, 0, 0xFE, 1, 1, 0, 0, 0, 0, 0, 0, 0, 0x5F, 0x63, 0x11];
/// let tally = strict::decode_volume_float16(Footprint::F3x3x3, 3, 3, 3, &other, &mut texels)?;
/// assert_eq!(tally.first.map(|first| first.fault), Some(Fault::NotCanonical));
/// # Ok::<(), stallbrook::Refusal>(())
/// ```
pub fn decode_volume_float16(
    footprint: Footprint, width: u32, height: u32, depth: u32, blocks: &[u8], out: &mut [u16],
) -> Result<Tally, Refusal> {
    let mut tally = [0; 3];
    let number = raw::strict_decode_volume_float16(footprint.number(), width, height, depth, blocks, out, &mut tally);
    Tally::told(number, tally)
}

/// The fault of each block of an image, 21 too.
///
/// ```
/// use stallbrook::{Footprint, Kind, strict};
/// let other = [0x42, 0, 0, 0xFE, 1, 1, 0, 0, 0, 0, 0, 0, 0, 0, 0, 0x80];
/// let mut faults = [0; 2];
/// strict::image_faults(Footprint::F4x4, Kind::Srgb8, 8, 4, &[other, [0; 16]].concat(), &mut faults)?;
/// assert_eq!(faults, [21, 11]);
/// # Ok::<(), stallbrook::Refusal>(())
/// ```
pub fn image_faults(
    footprint: Footprint, kind: Kind, width: u32, height: u32, blocks: &[u8], faults: &mut [u8],
) -> Result<Tally, Refusal> {
    let mut tally = [0; 3];
    let number = raw::strict_image_faults(footprint.number(), kind.number(), width, height, blocks, faults, &mut tally);
    Tally::told(number, tally)
}

/// The settings and spare bits of a block that passes.
///
/// ```
/// use stallbrook::{Error, Fault, Footprint, strict};
/// let agreed = [0x42, 0, 0, 0xFE, 1, 0, 0, 0, 0, 0, 0, 0, 0, 0, 0, 0x80];
/// assert_eq!(strict::read_symbolic_spare(Footprint::F4x4, &agreed)?.block.width, 4);
/// let other = [0x42, 0, 0, 0xFE, 1, 1, 0, 0, 0, 0, 0, 0, 0, 0, 0, 0x80];
/// assert_eq!(strict::read_symbolic_spare(Footprint::F4x4, &other), Err(Error::Faulty(Fault::NotCanonical)));
/// # Ok::<(), Error>(())
/// ```
pub fn read_symbolic_spare(footprint: Footprint, block: &[u8]) -> Result<SymbolicReading, Error> {
    let (mut numbers, mut spare) = ([0; crate::NUMBERS], [0; 2]);
    match of_block(raw::strict_read_symbolic(footprint.number(), block, &mut numbers, &mut spare))? {
        Some(fault) => Err(Error::Faulty(fault)),
        None => Ok(SymbolicReading::told(&numbers, spare)),
    }
}

/// A block in its canonical form, and its fault by the list of half floats: with a fault the block is as it was.
///
/// ```
/// use stallbrook::{Fault, Footprint, strict};
/// assert_eq!(strict::canonical_block(Footprint::F4x4, &[0; 16])?, ([0; 16], Some(Fault::Reserved)));
/// # Ok::<(), stallbrook::Refusal>(())
/// ```
pub fn canonical_block(footprint: Footprint, block: &[u8]) -> Result<([u8; 16], Option<Fault>), Refusal> {
    let mut out = [0; 16];
    let fault = of_block(raw::canonical_block(footprint.number(), block, &mut out))?;
    Ok((out, fault))
}

/// Every block of an image in its canonical form, into a list of the same length; those with a fault are as they were, and counted.
///
/// ```
/// use stallbrook::{Footprint, strict};
/// let other = [0x42, 0, 0, 0xFE, 1, 1, 0, 0, 0, 0, 0, 0, 0, 0, 0, 0x80];
/// let mut out = [7; 32];
/// let tally = strict::canonical_image(Footprint::F4x4, 8, 4, &[other, [0; 16]].concat(), &mut out)?;
/// assert_eq!((tally.faulty, out[5], &out[16..]), (1, 0, &[0; 16][..]));
/// # Ok::<(), stallbrook::Refusal>(())
/// ```
pub fn canonical_image(
    footprint: Footprint, width: u32, height: u32, blocks: &[u8], out: &mut [u8],
) -> Result<Tally, Refusal> {
    let mut tally = [0; 3];
    let number = raw::canonical_image(footprint.number(), width, height, blocks, out, &mut tally);
    Tally::told(number, tally)
}

/// The same in place.
///
/// ```
/// use stallbrook::{Footprint, strict};
/// let mut blocks = [0x42, 0, 0, 0xFE, 1, 1, 0, 0, 0, 0, 0, 0, 0, 0, 0, 0x80];
/// assert_eq!(strict::canonical_in_place(Footprint::F4x4, 4, 4, &mut blocks)?.faulty, 0);
/// assert_eq!(blocks[5], 0);
/// # Ok::<(), stallbrook::Refusal>(())
/// ```
pub fn canonical_in_place(footprint: Footprint, width: u32, height: u32, blocks: &mut [u8]) -> Result<Tally, Refusal> {
    let mut tally = [0; 3];
    let number = raw::canonical_in_place(footprint.number(), width, height, blocks, &mut tally);
    Tally::told(number, tally)
}

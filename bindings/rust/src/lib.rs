//! Compressed textures read exactly: ASTC blocks, images, volumes and .astc files (LDR and HDR) to texels, ASTC settings to blocks and back, the best
//! grey [captions](caption), [clips](clip) of ASTC frames piece by piece, [BC7](bc7) blocks and pictures, and [PVRTC1](pvrtc) images.
//!
//! These are safe wrappers over `libstallbrook`, in which every function is proved to meet its contract: for every input, wrong ones included, it is
//! fixed what a call answers and what it leaves in the memory that it was lent.
//!
//! ```
//! use stallbrook::{Fault, Footprint, Refusal, view::View};
//! // two blocks of 4x4, side by side: a grey one, and one of zeros, which is damaged
//! let mut blocks = [0; 32];
//! blocks[..16].copy_from_slice(&[0x42, 0, 0, 0xFE, 1, 0, 0, 0, 0, 0, 0, 0, 0, 0, 0, 0x80]);
//! let view = View::new(&blocks, Footprint::F4x4, 8, 4)?;
//!
//! // the whole picture, and which block is the first bad one
//! let (texels, tally) = view.to_srgb8();
//! assert_eq!(texels[..4], [84, 84, 84, 255]);
//! assert_eq!(tally.faulty, 1);
//! assert_eq!(tally.first.map(|first| (first.block, first.fault)), Some((1, Fault::Reserved)));
//!
//! // one texel
//! let asked = view.srgb8(4, 0)?;
//! assert_eq!((asked.texel, asked.fault), ([255, 0, 255, 255], Some(Fault::Reserved)));
//! # Ok::<(), Refusal>(())
//! ```
//!
//! # What calls tell
//!
//! A call that cannot do what it is asked is *refused*, and leaves result buffers as they were: `Err(`[`Refusal`]`)`. A damaged block is no refusal:
//! its texels are the error colour (magenta, in half floats NaN), and its [`Fault`] is told: of a block as `Option<Fault>`, of a picture as a [`Tally`].
//! Calls that read a block's settings have none to give where it has a fault: their [`Error`] is either.
//!
//! Texels are four numbers R, G, B, A, rows first, of volumes layer by layer, in three [kinds](Kind). The calls may run on any number of threads at once.
//!
//! # The library
//!
//! The environment variable `STALLBROOK_LIB` names the folder of `libstallbrook.a` when this package is built. Where it is not set, `target/staticlib`
//! of the repository is taken, and else the system's library. The modules `raw` are the same calls with plain numbers, as they stand in `stallbrook.h`.

#![deny(missing_docs)]

pub mod bc7;
pub mod caption;
pub mod clip;
mod ffi;
pub mod file;
mod numbers;
pub mod pvrtc;
pub mod raw;
pub mod strict;
pub mod view;

use numbers::of_block;
pub use numbers::{Error, Fault, FirstFault, Footprint, Kind, Refusal, Tally, UnknownNumber};

/// The version of the library that is linked.
///
/// ```
/// assert_eq!(stallbrook::version(), env!("CARGO_PKG_VERSION"));
/// ```
pub fn version() -> &'static str {
    unsafe { std::ffi::CStr::from_ptr(ffi::stallbrook_version()) }.to_str().expect("digits and dots")
}

/// Numbers of a symbolic block's flat form.
pub const NUMBERS: usize = 107;

/// A block's settings and stored numbers; unused fields are 0. The default is all 0, which no block has.
///
/// ```
/// use stallbrook::{Footprint, SymbolicBlock, read_symbolic};
/// let block = [0x42, 0, 0, 0xFE, 1, 0, 0, 0, 0, 0, 0, 0, 0, 0, 0, 0x80];
/// let settings = read_symbolic(Footprint::F4x4, &block)?;
/// assert_eq!((settings.width, settings.height, settings.depth, settings.partitions), (4, 4, 1, 1));
/// assert_eq!(settings.endpoints[..2], [0, 255]);
/// let numbers = settings.to_numbers();
/// assert_eq!(numbers[9..11], [4, 4]);
/// assert_eq!(SymbolicBlock::from_numbers(&numbers), settings);
/// # Ok::<(), stallbrook::Error>(())
/// ```
#[derive(Clone, PartialEq, Eq, Hash, Debug)]
pub struct SymbolicBlock {
    /// 1 for a void extent (a solid block), which uses the colours, the extents and the HDR mark only; 0 for any other.
    pub mark: u16,
    /// R, G, B, A of a void extent.
    pub colours: [u16; 4],
    /// Low s, high s, low t, high t, low r, high r; of a flat void extent the last two are 0.
    pub extents: [u16; 6],
    /// Width of the weight grid.
    pub width: u16,
    /// Height of the weight grid.
    pub height: u16,
    /// Depth of the weight grid: 1 at flat footprints, 2 to 6 at volumes, 0 of a void extent.
    pub depth: u16,
    /// Range of the weights.
    pub range: u16,
    /// Weight planes, 1 or 2.
    pub planes: u16,
    /// The channel of the second plane.
    pub component: u16,
    /// 1 to 4.
    pub partitions: u16,
    /// Partition index.
    pub index: u16,
    /// How the endpoint modes are stored.
    pub selector: u16,
    /// The partitions' endpoint modes.
    pub modes: [u16; 4],
    /// The endpoint numbers as stored.
    pub endpoints: [u16; 18],
    /// The weights as stored; of two planes in turn.
    pub weights: [u16; 64],
    /// 1 for HDR: of a void extent its bit 9; of any other exactly where some partition's mode is HDR.
    pub hdr: u16,
}

impl SymbolicBlock {
    /// The flat form: all fields in order, but for the depth and the last two extents, which stand at the end.
    pub fn to_numbers(&self) -> [u16; NUMBERS] {
        let mut numbers = [0; NUMBERS];
        numbers[0] = self.mark;
        numbers[1..5].copy_from_slice(&self.colours);
        numbers[5..9].copy_from_slice(&self.extents[..4]);
        numbers[9..17].copy_from_slice(&[
            self.width,
            self.height,
            self.range,
            self.planes,
            self.component,
            self.partitions,
            self.index,
            self.selector,
        ]);
        numbers[17..21].copy_from_slice(&self.modes);
        numbers[21..39].copy_from_slice(&self.endpoints);
        numbers[39..103].copy_from_slice(&self.weights);
        numbers[103] = self.hdr;
        numbers[104] = self.depth;
        numbers[105..].copy_from_slice(&self.extents[4..]);
        numbers
    }

    /// From the flat form.
    pub fn from_numbers(numbers: &[u16; NUMBERS]) -> SymbolicBlock {
        let four = |from: usize| [0, 1, 2, 3].map(|i| numbers[from + i]);
        SymbolicBlock {
            mark: numbers[0],
            colours: four(1),
            extents: [5, 6, 7, 8, 105, 106].map(|i: usize| numbers[i]),
            width: numbers[9],
            height: numbers[10],
            depth: numbers[104],
            range: numbers[11],
            planes: numbers[12],
            component: numbers[13],
            partitions: numbers[14],
            index: numbers[15],
            selector: numbers[16],
            modes: four(17),
            endpoints: std::array::from_fn(|i| numbers[21 + i]),
            weights: std::array::from_fn(|i| numbers[39 + i]),
            hdr: numbers[103],
        }
    }
}

impl Default for SymbolicBlock {
    fn default() -> SymbolicBlock {
        SymbolicBlock::from_numbers(&[0; NUMBERS])
    }
}

/// A block's texels as four 16-bit numbers each, rows first.
///
/// ```
/// use stallbrook::{Fault, Footprint};
/// let mut texels = [7u16; 4 * 16];
/// // a block of zeros has a reserved mode: magenta, and fault 11
/// let answer = stallbrook::decode_block_unorm16(Footprint::F4x4, &[0; 16], &mut texels);
/// assert_eq!(answer, Ok(Some(Fault::Reserved)));
/// assert_eq!(texels[..4], [65535, 0, 65535, 65535]);
/// ```
pub fn decode_block_unorm16(footprint: Footprint, block: &[u8], out: &mut [u16]) -> Result<Option<Fault>, Refusal> {
    of_block(raw::decode_block_unorm16(footprint.number(), block, out))
}

/// A block's texels as four bytes each, before the sRGB curve.
///
/// ```
/// use stallbrook::{Footprint, Refusal, decode_block_srgb8};
/// let block = [0x42, 0, 0, 0xFE, 1, 0, 0, 0, 0, 0, 0, 0, 0, 0, 0, 0x80];
/// let mut texels = [7; 4 * 16];
/// // fifteen bytes are no block: refused by 4, and nothing is written
/// assert_eq!(decode_block_srgb8(Footprint::F4x4, &block[..15], &mut texels), Err(Refusal::Blocks));
/// assert_eq!(texels, [7; 4 * 16]);
///
/// let fault = decode_block_srgb8(Footprint::F4x4, &block, &mut texels)?;
/// assert_eq!((fault, &texels[..4]), (None, &[84, 84, 84, 255][..]));
/// # Ok::<(), Refusal>(())
/// ```
pub fn decode_block_srgb8(footprint: Footprint, block: &[u8], out: &mut [u8]) -> Result<Option<Fault>, Refusal> {
    of_block(raw::decode_block_srgb8(footprint.number(), block, out))
}

/// A block's texels as four half floats each, as 16-bit patterns; HDR blocks too.
///
/// ```
/// use stallbrook::{Fault, Footprint};
/// // an HDR void extent shows its colours as they are stored: 1.0, infinity, 0.5, 2.0
/// let colours = [0x3C00u16, 0x7C00, 0x3800, 0x4000];
/// let mut block = [0xFF; 16];
/// block[0] = 0xFC;
/// block[8..].copy_from_slice(colours.map(u16::to_le_bytes).as_flattened());
/// let mut texels = [0u16; 4 * 16];
/// assert_eq!(stallbrook::decode_block_float16(Footprint::F4x4, &block, &mut texels)?, None);
/// assert_eq!(texels[..4], colours);
/// // the other kinds have no such blocks: fault 13
/// let answer = stallbrook::decode_block_unorm16(Footprint::F4x4, &block, &mut texels)?;
/// assert_eq!(answer, Some(Fault::HdrVoidExtent));
/// # Ok::<(), stallbrook::Refusal>(())
/// ```
pub fn decode_block_float16(footprint: Footprint, block: &[u8], out: &mut [u16]) -> Result<Option<Fault>, Refusal> {
    of_block(raw::decode_block_float16(footprint.number(), block, out))
}

/// An image's texels as four 16-bit numbers each; blocks in raster order.
///
/// ```
/// use stallbrook::{Fault, FirstFault, Footprint};
/// // three texels of a 4x4 block of zeros
/// let mut texels = [0u16; 4 * 3];
/// let tally = stallbrook::decode_image_unorm16(Footprint::F4x4, 3, 1, &[0; 16], &mut texels)?;
/// assert_eq!((tally.faulty, tally.first), (1, Some(FirstFault { block: 0, fault: Fault::Reserved })));
/// # Ok::<(), stallbrook::Refusal>(())
/// ```
pub fn decode_image_unorm16(
    footprint: Footprint, width: u32, height: u32, blocks: &[u8], out: &mut [u16],
) -> Result<Tally, Refusal> {
    let mut tally = [0; 3];
    let number = raw::decode_image_unorm16(footprint.number(), width, height, blocks, out, &mut tally);
    Tally::told(number, tally)
}

/// An image's texels as four bytes each, before the sRGB curve.
///
/// ```
/// use stallbrook::{Footprint, Refusal, decode_image_srgb8};
/// // an image of 5 by 4 texels has two blocks of 4x4: here the same, of which the second shows a column
/// let block = [0x42, 0, 0, 0xFE, 1, 0, 0, 0, 0, 0, 0, 0, 0, 0, 0, 0x80];
/// let mut texels = [0; 4 * 5 * 4];
/// let tally = decode_image_srgb8(Footprint::F4x4, 5, 4, &[block, block].concat(), &mut texels)?;
/// assert_eq!((tally.faulty, tally.first), (0, None));
/// assert_eq!(texels[16..20], [84, 84, 84, 255]);
/// assert_eq!(decode_image_srgb8(Footprint::F4x4, 5, 4, &block, &mut texels), Err(Refusal::Blocks));
/// # Ok::<(), Refusal>(())
/// ```
pub fn decode_image_srgb8(
    footprint: Footprint, width: u32, height: u32, blocks: &[u8], out: &mut [u8],
) -> Result<Tally, Refusal> {
    let mut tally = [0; 3];
    let number = raw::decode_image_srgb8(footprint.number(), width, height, blocks, out, &mut tally);
    Tally::told(number, tally)
}

/// An image's texels as four half floats each, as 16-bit patterns; HDR blocks too.
///
/// ```
/// // a block of zeros has a reserved mode: its texels are 65535, a NaN, in all four channels
/// let mut texels = [0u16; 4 * 3];
/// let tally = stallbrook::decode_image_float16(stallbrook::Footprint::F4x4, 3, 1, &[0; 16], &mut texels)?;
/// assert_eq!(tally.faulty, 1);
/// assert_eq!(texels, [65535; 4 * 3]);
/// # Ok::<(), stallbrook::Refusal>(())
/// ```
pub fn decode_image_float16(
    footprint: Footprint, width: u32, height: u32, blocks: &[u8], out: &mut [u16],
) -> Result<Tally, Refusal> {
    let mut tally = [0; 3];
    let number = raw::decode_image_float16(footprint.number(), width, height, blocks, out, &mut tally);
    Tally::told(number, tally)
}

/// A volume's texels as four 16-bit numbers each: width, height and depth; blocks and texels x fastest, then y, then z.
///
/// ```
/// use stallbrook::{Fault, FirstFault, Footprint};
/// // a block of 3x3x3, and behind it one of zeros
/// let mut blocks = [0; 32];
/// blocks[..16].copy_from_slice(&[0x13, 0, 0, 0xFE, 1, 0, 0, 0, 0, 0, 0, 0, 0, 0x5F, 0x63, 0x11]);
/// let mut texels = [0u16; 4 * 3 * 3 * 4];
/// let tally = stallbrook::decode_volume_unorm16(Footprint::F3x3x3, 3, 3, 4, &blocks, &mut texels)?;
/// assert_eq!((tally.faulty, tally.first), (1, Some(FirstFault { block: 1, fault: Fault::Reserved })));
/// // the last texel of the first block, and the first of the second
/// assert_eq!(texels[4 * 26..][..8], [65535, 65535, 65535, 65535, 65535, 0, 65535, 65535]);
/// # Ok::<(), stallbrook::Refusal>(())
/// ```
pub fn decode_volume_unorm16(
    footprint: Footprint, width: u32, height: u32, depth: u32, blocks: &[u8], out: &mut [u16],
) -> Result<Tally, Refusal> {
    let mut tally = [0; 3];
    let number = raw::decode_volume_unorm16(footprint.number(), width, height, depth, blocks, out, &mut tally);
    Tally::told(number, tally)
}

/// A volume's texels as four bytes each, before the sRGB curve. A flat footprint is taken too: its blocks are one layer thick.
///
/// ```
/// use stallbrook::{Footprint, Refusal, decode_volume_srgb8};
/// let block = [0x13, 0, 0, 0xFE, 1, 0, 0, 0, 0, 0, 0, 0, 0, 0x5F, 0x63, 0x11];
/// let mut texels = [0; 4 * 27];
/// assert_eq!(decode_volume_srgb8(Footprint::F3x3x3, 3, 3, 3, &block, &mut texels)?.faulty, 0);
/// // texels 1, 0, 0; 0, 1, 0; 0, 0, 1
/// assert_eq!([texels[4], texels[4 * 3], texels[4 * 9]], [20, 36, 76]);
///
/// // two slices of a flat block
/// let slice = [0x42, 0, 0, 0xFE, 1, 0, 0, 0, 0, 0, 0, 0, 0, 0, 0, 0x80];
/// let mut texels = [0; 4 * 16 * 2];
/// decode_volume_srgb8(Footprint::F4x4, 4, 4, 2, &[slice, slice].concat(), &mut texels)?;
/// assert_eq!((texels[0], texels[4 * 16]), (84, 84));
/// assert_eq!(decode_volume_srgb8(Footprint::F4x4, 4, 4, 2049, &slice, &mut texels), Err(Refusal::Side));
/// # Ok::<(), Refusal>(())
/// ```
pub fn decode_volume_srgb8(
    footprint: Footprint, width: u32, height: u32, depth: u32, blocks: &[u8], out: &mut [u8],
) -> Result<Tally, Refusal> {
    let mut tally = [0; 3];
    let number = raw::decode_volume_srgb8(footprint.number(), width, height, depth, blocks, out, &mut tally);
    Tally::told(number, tally)
}

/// A volume's texels as four half floats each, as 16-bit patterns; HDR blocks too.
///
/// ```
/// // three texels behind each other of an HDR void extent: 1.0, 2.0, 0.5, 1.0
/// let block = [0xFC, 0xFF, 0xFF, 0xFF, 0xFF, 0xFF, 0xFF, 0xFF, 0, 0x3C, 0, 0x40, 0, 0x38, 0, 0x3C];
/// let mut texels = [0u16; 4 * 3];
/// let tally = stallbrook::decode_volume_float16(stallbrook::Footprint::F4x4x4, 1, 1, 3, &block, &mut texels)?;
/// assert_eq!(tally.faulty, 0);
/// assert_eq!(texels[8..], [0x3C00, 0x4000, 0x3800, 0x3C00]);
/// # Ok::<(), stallbrook::Refusal>(())
/// ```
pub fn decode_volume_float16(
    footprint: Footprint, width: u32, height: u32, depth: u32, blocks: &[u8], out: &mut [u16],
) -> Result<Tally, Refusal> {
    let mut tally = [0; 3];
    let number = raw::decode_volume_float16(footprint.number(), width, height, depth, blocks, out, &mut tally);
    Tally::told(number, tally)
}

/// The fault of each block of an image in a kind, a byte for each block in raster order, 0 for none; no texel is painted. A block has 0 exactly where
/// the image call shows its own texels.
///
/// ```
/// use stallbrook::{Fault, Footprint, Kind, Refusal, image_faults};
/// // a block of zeros beside one that is sound
/// let mut blocks = [0; 32];
/// blocks[16..].copy_from_slice(&[0x42, 0, 0, 0xFE, 1, 0, 0, 0, 0, 0, 0, 0, 0, 0, 0, 0x80]);
/// let mut faults = [7; 2];
/// let tally = image_faults(Footprint::F4x4, Kind::Srgb8, 8, 4, &blocks, &mut faults)?;
/// assert_eq!((faults, tally.faulty), ([11, 0], 1));
/// assert_eq!(Fault::try_from(faults[0]), Ok(Fault::Reserved));
/// assert_eq!(image_faults(Footprint::F4x4, Kind::Srgb8, 8, 4, &blocks, &mut [0; 3]), Err(Refusal::Length));
/// # Ok::<(), Refusal>(())
/// ```
pub fn image_faults(
    footprint: Footprint, kind: Kind, width: u32, height: u32, blocks: &[u8], faults: &mut [u8],
) -> Result<Tally, Refusal> {
    let mut tally = [0; 3];
    let number = raw::image_faults(footprint.number(), kind.number(), width, height, blocks, faults, &mut tally);
    Tally::told(number, tally)
}

/// How many blocks an image has, each of 16 bytes; none where a side is 0 or above 16,384, or the footprint is a volume.
///
/// ```
/// use stallbrook::{Footprint, image_blocks};
/// assert_eq!(image_blocks(Footprint::F6x6, 13, 6), Some(3));
/// assert_eq!(image_blocks(Footprint::F6x6, 0, 6), None);
/// ```
pub fn image_blocks(footprint: Footprint, width: u32, height: u32) -> Option<usize> {
    Some(raw::image_blocks(footprint.number(), width, height) as usize).filter(|&blocks| blocks != 0)
}

/// How many numbers an image's texels are, 4 for each; none where a side is 0 or above 16,384.
///
/// ```
/// use stallbrook::image_numbers;
/// assert_eq!(image_numbers(16_384, 16_384), Some(1 << 30));
/// assert_eq!(image_numbers(16_385, 1), None);
/// ```
pub fn image_numbers(width: u32, height: u32) -> Option<usize> {
    Some(raw::image_numbers(width, height) as usize).filter(|&numbers| numbers != 0)
}

/// How many blocks a volume has, each of 16 bytes; none where a side is 0 or above 16,384, or the depth 0 or above 2,048.
///
/// ```
/// use stallbrook::{Footprint, volume_blocks};
/// assert_eq!(volume_blocks(Footprint::F6x6x6, 13, 6, 7), Some(6));
/// assert_eq!(volume_blocks(Footprint::F6x6, 13, 6, 7), Some(21));
/// assert_eq!(volume_blocks(Footprint::F6x6x6, 13, 6, 0), None);
/// ```
pub fn volume_blocks(footprint: Footprint, width: u32, height: u32, depth: u32) -> Option<usize> {
    Some(raw::volume_blocks(footprint.number(), width, height, depth) as usize).filter(|&blocks| blocks != 0)
}

/// How many numbers a volume's texels are, 4 for each; none where a side is 0 or above 16,384, or the depth 0 or above 2,048.
///
/// ```
/// use stallbrook::volume_numbers;
/// assert_eq!(volume_numbers(128, 128, 128), Some(1 << 23));
/// assert_eq!(volume_numbers(1, 1, 2049), None);
/// ```
pub fn volume_numbers(width: u32, height: u32, depth: u32) -> Option<usize> {
    Some(raw::volume_numbers(width, height, depth) as usize).filter(|&numbers| numbers != 0)
}

/// The symbolic block of a block without fault, LDR or HDR: faults are those of half floats, without 13 and 20.
///
/// ```
/// use stallbrook::{Error, Fault, Footprint, read_symbolic};
/// let block = [0x42, 0, 0, 0xFE, 1, 0, 0, 0, 0, 0, 0, 0, 0, 0, 0, 0x80];
/// assert_eq!(read_symbolic(Footprint::F4x4, &block)?.weights[0], 1);
/// assert_eq!(read_symbolic(Footprint::F4x4, &[0; 16]), Err(Error::Faulty(Fault::Reserved)));
/// # Ok::<(), Error>(())
/// ```
pub fn read_symbolic(footprint: Footprint, block: &[u8]) -> Result<SymbolicBlock, Error> {
    Ok(read_symbolic_spare(footprint, block)?.block)
}

/// What the reader tells of a block.
#[derive(Clone, PartialEq, Eq, Hash, Debug)]
pub struct SymbolicReading {
    /// The settings.
    pub block: SymbolicBlock,
    /// Spare bits between endpoints and weights: 128 less the bits of all fields, 0 of a void extent.
    pub spare_count: u8,
    /// Some spare bit is set.
    pub spare_set: bool,
}

impl SymbolicReading {
    fn told(numbers: &[u16; NUMBERS], spare: [u16; 2]) -> SymbolicReading {
        let block = SymbolicBlock::from_numbers(numbers);
        SymbolicReading { block, spare_count: spare[0] as u8, spare_set: spare[1] == 1 }
    }
}

/// The same with the spare bits: an encoder leaves them 0, as [`write_symbolic`] does.
///
/// ```
/// use stallbrook::{Footprint, read_symbolic_spare};
/// let mut block = [0x42, 0, 0, 0xFE, 1, 0, 0, 0, 0, 0, 0, 0, 0, 0, 0, 0x80];
/// let reading = read_symbolic_spare(Footprint::F4x4, &block)?;
/// assert_eq!((reading.spare_count, reading.spare_set), (63, false));
/// block[5] = 1;
/// let other = read_symbolic_spare(Footprint::F4x4, &block)?;
/// assert_eq!((other.spare_count, other.spare_set), (63, true));
/// assert_eq!(other.block, reading.block);
/// # Ok::<(), stallbrook::Error>(())
/// ```
pub fn read_symbolic_spare(footprint: Footprint, block: &[u8]) -> Result<SymbolicReading, Error> {
    let (mut numbers, mut spare) = ([0; NUMBERS], [0; 2]);
    if let Some(fault) = of_block(raw::read_symbolic(footprint.number(), block, &mut numbers, &mut spare))? {
        return Err(Error::Faulty(fault));
    }
    Ok(SymbolicReading::told(&numbers, spare))
}

/// The block of an acceptable symbolic block, with the smallest codes and spare bits 0, and of two block modes that say the same the smaller.
///
/// ```
/// use stallbrook::{Fault, Footprint, Refusal, read_symbolic, write_symbolic};
/// let block = [0x42, 0, 0, 0xFE, 1, 0, 0, 0, 0, 0, 0, 0, 0, 0, 0, 0x80];
/// let mut settings = read_symbolic(Footprint::F4x4, &block)?;
/// assert_eq!(write_symbolic(Footprint::F4x4, &settings)?, block);
/// settings.endpoints[0] = 256;
/// assert_eq!(write_symbolic(Footprint::F4x4, &settings), Err(Refusal::Range));
/// settings.planes = 3;
/// assert_eq!(write_symbolic(Footprint::F4x4, &settings), Err(Refusal::Field));
///
/// // endpoint mode 2 is HDR: refused by 20 without the mark, and the mark by 35 without such a mode
/// let mut settings = read_symbolic(Footprint::F4x4, &block)?;
/// settings.hdr = 1;
/// assert_eq!(write_symbolic(Footprint::F4x4, &settings), Err(Refusal::HdrMark));
/// settings.modes[0] = 2;
/// assert!(write_symbolic(Footprint::F4x4, &settings).is_ok());
/// settings.hdr = 0;
/// assert_eq!(write_symbolic(Footprint::F4x4, &settings), Err(Refusal::Settings(Fault::HdrMode)));
///
/// // a grid of two layers is no flat block's
/// let mut settings = read_symbolic(Footprint::F3x3x3, &[0x13, 0, 0, 0xFE, 1, 0, 0, 0, 0, 0, 0, 0, 0, 0x5F, 0x63, 0x11])?;
/// assert_eq!((settings.width, settings.height, settings.depth), (2, 2, 2));
/// assert_eq!(write_symbolic(Footprint::F4x4, &settings), Err(Refusal::Field));
/// settings.depth = 4;
/// assert_eq!(write_symbolic(Footprint::F3x3x3, &settings), Err(Refusal::Settings(Fault::Grid)));
/// # Ok::<(), stallbrook::Error>(())
/// ```
pub fn write_symbolic(footprint: Footprint, block: &SymbolicBlock) -> Result<[u8; 16], Refusal> {
    let mut bytes = [0; 16];
    Refusal::told(raw::write_symbolic(footprint.number(), &block.to_numbers(), &mut bytes))?;
    Ok(bytes)
}

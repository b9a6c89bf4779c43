//! The usual .astc files: a header of sixteen bytes, then the blocks in raster order.
//!
//! ```
//! use stallbrook::Footprint;
//! use stallbrook::file::{AstcFile, write_header};
//!
//! // a file of one 4x4 block, of which a texel is shown
//! let mut bytes = write_header(Footprint::F4x4, 1, 1)?.to_vec();
//! bytes.extend([0x42, 0, 0, 0xFE, 1, 0, 0, 0, 0, 0, 0, 0, 0, 0, 0, 0x80]);
//!
//! let file = AstcFile::read(&bytes)?;
//! assert_eq!((file.footprint, file.width, file.height), (Footprint::F4x4, 1, 1));
//! assert_eq!(file.blocks, &bytes[16..]);
//! let (texels, tally) = file.view().to_srgb8();
//! assert_eq!((texels, tally.faulty), (vec![84, 84, 84, 255], 0));
//!
//! // a byte too many is refused by 4
//! bytes.push(0);
//! let error = AstcFile::read(&bytes).unwrap_err();
//! assert_eq!((error.number(), error), (4, stallbrook::Refusal::Blocks));
//! # Ok::<(), stallbrook::Refusal>(())
//! ```

use crate::view::View;
use crate::{Footprint, Refusal, Tally};

/// The calls over slices, with plain numbers.
pub mod raw {
    unsafe extern "C" {
        fn stallbrook_astc_read_header(file: *const u8, file_len: usize, header: *mut u32, header_len: usize) -> u8;
        fn stallbrook_astc_write_header(
            footprint: u8, width: u32, height: u32, header: *mut u8, header_len: usize,
        ) -> u8;
        fn stallbrook_astc_decode_file_unorm16(
            file: *const u8, file_len: usize, out: *mut u16, out_len: usize, tally: *mut u64, tally_len: usize,
        ) -> u8;
        fn stallbrook_astc_decode_file_srgb8(
            file: *const u8, file_len: usize, out: *mut u8, out_len: usize, tally: *mut u64, tally_len: usize,
        ) -> u8;
        fn stallbrook_astc_decode_file_float16(
            file: *const u8, file_len: usize, out: *mut u16, out_len: usize, tally: *mut u64, tally_len: usize,
        ) -> u8;
    }

    /// 0, the refusal 41, 42, 43, 3, 4 (zeros), or 5, last (nothing written), where there are not 3 numbers.
    pub fn read_header(file: &[u8], header: &mut [u32]) -> u8 {
        unsafe { stallbrook_astc_read_header(file.as_ptr(), file.len(), header.as_mut_ptr(), header.len()) }
    }

    /// 0, the refusal 1, 3 (zeros), or 5, last (nothing written), where there are not 16 bytes.
    pub fn write_header(footprint: u8, width: u32, height: u32, header: &mut [u8]) -> u8 {
        unsafe { stallbrook_astc_write_header(footprint, width, height, header.as_mut_ptr(), header.len()) }
    }

    /// 0, or 41, 42, 43, 3, 4, 5 (texels as they were, zeros in the tally).
    pub fn decode_file_unorm16(file: &[u8], out: &mut [u16], tally: &mut [u64]) -> u8 {
        let (n, m, k) = (file.len(), out.len(), tally.len());
        unsafe { stallbrook_astc_decode_file_unorm16(file.as_ptr(), n, out.as_mut_ptr(), m, tally.as_mut_ptr(), k) }
    }

    /// The same in kind 1.
    pub fn decode_file_srgb8(file: &[u8], out: &mut [u8], tally: &mut [u64]) -> u8 {
        let (n, m, k) = (file.len(), out.len(), tally.len());
        unsafe { stallbrook_astc_decode_file_srgb8(file.as_ptr(), n, out.as_mut_ptr(), m, tally.as_mut_ptr(), k) }
    }

    /// The same in kind 2.
    pub fn decode_file_float16(file: &[u8], out: &mut [u16], tally: &mut [u64]) -> u8 {
        let (n, m, k) = (file.len(), out.len(), tally.len());
        unsafe { stallbrook_astc_decode_file_float16(file.as_ptr(), n, out.as_mut_ptr(), m, tally.as_mut_ptr(), k) }
    }
}

/// What a whole file's header says, and the bytes of its blocks.
#[derive(Clone, Copy, PartialEq, Eq, Debug)]
pub struct AstcFile<'a> {
    /// How many texels a block covers.
    pub footprint: Footprint,
    /// In texels.
    pub width: u32,
    /// In texels.
    pub height: u32,
    /// In raster order, 16 bytes each.
    pub blocks: &'a [u8],
}

impl<'a> AstcFile<'a> {
    /// Opens a file that is lent whole. Refused by 41 (fewer than 16 bytes), 42 (another start), 43 (footprint, depth or third size), 3 (a side) or 4 (the length).
    pub fn read(file: &'a [u8]) -> Result<AstcFile<'a>, Refusal> {
        let mut header = [0; 3];
        Refusal::told(raw::read_header(file, &mut header))?;
        let [footprint, width, height] = header;
        let footprint = Footprint::try_from(footprint as u8)?;
        Ok(AstcFile { footprint, width, height, blocks: &file[16..] })
    }

    /// The file's picture, to be decoded or asked for texels.
    pub fn view(&self) -> View<'a> {
        View::new(self.blocks, self.footprint, self.width, self.height).expect("a file that was read has a picture")
    }

    /// How many numbers its texels are.
    ///
    /// ```
    /// use stallbrook::{Footprint, Refusal, file::AstcFile, file::write_header};
    /// let bytes = [write_header(Footprint::F12x12, 3, 2)?, [0; 16]].concat();
    /// assert_eq!(AstcFile::read(&bytes)?.numbers(), 24);
    /// # Ok::<(), Refusal>(())
    /// ```
    pub fn numbers(&self) -> usize {
        crate::image_numbers(self.width, self.height).expect("a file that was read has sides")
    }
}

/// The header of an image's file, refused by 1 (a volume footprint) and 3; its blocks stand behind it.
///
/// ```
/// use stallbrook::{Footprint, Refusal, file::write_header};
/// let header = write_header(Footprint::F6x5, 640, 480)?;
/// assert_eq!(header, [0x13, 0xAB, 0xA1, 0x5C, 6, 5, 1, 0x80, 2, 0, 0xE0, 1, 0, 1, 0, 0]);
/// assert_eq!(write_header(Footprint::F6x5, 0, 480), Err(Refusal::Side));
/// # Ok::<(), Refusal>(())
/// ```
pub fn write_header(footprint: Footprint, width: u32, height: u32) -> Result<[u8; 16], Refusal> {
    let mut header = [0; 16];
    Refusal::told(raw::write_header(footprint.number(), width, height, &mut header))?;
    Ok(header)
}

/// A whole file's texels as four 16-bit numbers each.
///
/// ```
/// let mut file = stallbrook::file::write_header(stallbrook::Footprint::F4x4, 1, 1)?.to_vec();
/// file.extend([0x42, 0, 0, 0xFE, 1, 0, 0, 0, 0, 0, 0, 0, 0, 0, 0, 0x80]);
/// let mut texel = [0; 4];
/// assert_eq!(stallbrook::file::decode_unorm16(&file, &mut texel)?.first, None);
/// assert_eq!(texel, [21504, 21504, 21504, 65535]);
/// # Ok::<(), stallbrook::Refusal>(())
/// ```
pub fn decode_unorm16(file: &[u8], out: &mut [u16]) -> Result<Tally, Refusal> {
    let mut tally = [0; 3];
    let number = raw::decode_file_unorm16(file, out, &mut tally);
    Tally::told(number, tally)
}

/// A whole file's texels as four bytes each, before the sRGB curve.
///
/// ```
/// let mut file = stallbrook::file::write_header(stallbrook::Footprint::F4x4, 1, 1)?.to_vec();
/// file.extend([0x42, 0, 0, 0xFE, 1, 0, 0, 0, 0, 0, 0, 0, 0, 0, 0, 0x80]);
/// let mut texel = [0; 4];
/// assert_eq!(stallbrook::file::decode_srgb8(&file, &mut texel)?.first, None);
/// assert_eq!(texel, [84, 84, 84, 255]);
/// # Ok::<(), stallbrook::Refusal>(())
/// ```
pub fn decode_srgb8(file: &[u8], out: &mut [u8]) -> Result<Tally, Refusal> {
    let mut tally = [0; 3];
    let number = raw::decode_file_srgb8(file, out, &mut tally);
    Tally::told(number, tally)
}

/// A whole file's texels as four half floats each, as 16-bit patterns; HDR blocks too.
///
/// ```
/// // two texels of an HDR void extent: 1.0, 2.0, 0.5, 1.0
/// let mut bytes = stallbrook::file::write_header(stallbrook::Footprint::F4x4, 2, 1)?.to_vec();
/// bytes.extend([0xFC, 0xFF, 0xFF, 0xFF, 0xFF, 0xFF, 0xFF, 0xFF, 0, 0x3C, 0, 0x40, 0, 0x38, 0, 0x3C]);
/// let mut texels = [0u16; 8];
/// assert_eq!(stallbrook::file::decode_float16(&bytes, &mut texels)?.faulty, 0);
/// assert_eq!(texels, [0x3C00, 0x4000, 0x3800, 0x3C00, 0x3C00, 0x4000, 0x3800, 0x3C00]);
/// # Ok::<(), stallbrook::Refusal>(())
/// ```
pub fn decode_float16(file: &[u8], out: &mut [u16]) -> Result<Tally, Refusal> {
    let mut tally = [0; 3];
    let number = raw::decode_file_float16(file, out, &mut tally);
    Tally::told(number, tally)
}

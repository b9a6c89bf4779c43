//! BC7 (BPTC RGBA): blocks to texels, and sheets to blocks and back.
//!
//! ```
//! // mode 6: one subset, opaque white at both ends
//! let mut sheet = stallbrook::bc7::Sheet { mode: 6, ..stallbrook::bc7::Sheet::ZERO };
//! sheet.endpoints[..8].fill(127);
//! sheet.p_bits[..2].fill(1);
//! let block = stallbrook::bc7::write(&sheet)?;
//! assert_eq!(block[0], 0xC0);
//! assert_eq!(stallbrook::bc7::read(&block)?, sheet);
//! let mut texels = [0u8; 64];
//! stallbrook::bc7::decode_block(&block, &mut texels)?;
//! assert_eq!(texels, [255; 64]);
//! # Ok::<(), stallbrook::Error>(())
//! ```

use crate::numbers::of_block;
use crate::{Error, Fault, Refusal, Tally};

/// The calls over slices, with plain numbers.
pub mod raw {
    unsafe extern "C" {
        fn stallbrook_bc7_decode_block(block: *const u8, block_len: usize, out: *mut u8, out_len: usize) -> u8;
        fn stallbrook_bc7_read_symbolic(block: *const u8, block_len: usize, numbers: *mut u8, numbers_len: usize)
        -> u8;
        fn stallbrook_bc7_write_symbolic(
            numbers: *const u8, numbers_len: usize, block: *mut u8, block_len: usize,
        ) -> u8;
        fn stallbrook_bc7_decode_image(
            width: u32, height: u32, blocks: *const u8, blocks_len: usize, out: *mut u8, out_len: usize,
            tally: *mut u64, tally_len: usize,
        ) -> u8;
    }

    /// 0, or 3, 4, 5 (texels as they were, zeros in the tally).
    pub fn decode_image(width: u32, height: u32, blocks: &[u8], out: &mut [u8], tally: &mut [u64]) -> u8 {
        let (n, m, k) = (blocks.len(), out.len(), tally.len());
        unsafe {
            let (blocks, out, tally) = (blocks.as_ptr(), out.as_mut_ptr(), tally.as_mut_ptr());
            stallbrook_bc7_decode_image(width, height, blocks, n, out, m, tally, k)
        }
    }

    /// 0, 71 (zeros), or 4, 5 (nothing written).
    pub fn decode_block(block: &[u8], out: &mut [u8]) -> u8 {
        unsafe { stallbrook_bc7_decode_block(block.as_ptr(), block.len(), out.as_mut_ptr(), out.len()) }
    }

    /// 0, 4 or 71 (zeros), or 4, 5 (nothing written) where there are not 60 numbers.
    pub fn read_symbolic(block: &[u8], numbers: &mut [u8]) -> u8 {
        unsafe { stallbrook_bc7_read_symbolic(block.as_ptr(), block.len(), numbers.as_mut_ptr(), numbers.len()) }
    }

    /// 0, 72 or 73 (zeros), or 4, 5 (nothing written) where a length is wrong.
    pub fn write_symbolic(numbers: &[u8], block: &mut [u8]) -> u8 {
        unsafe { stallbrook_bc7_write_symbolic(numbers.as_ptr(), numbers.len(), block.as_mut_ptr(), block.len()) }
    }
}

/// A block's fields as stored, in the block's order; a field that the mode lacks is 0.
///
/// ```
/// use stallbrook::bc7::Sheet;
/// let sheet = Sheet { mode: 4, rotation: 2, ..Sheet::ZERO };
/// assert_eq!(sheet.to_numbers()[..4], [4, 0, 2, 0]);
/// assert_eq!(Sheet::from_numbers(&sheet.to_numbers()), sheet);
/// ```
#[derive(Clone, PartialEq, Eq, Hash, Debug)]
pub struct Sheet {
    /// 0 to 7.
    pub mode: u8,
    /// Which partition of the mode's subsets.
    pub partition: u8,
    /// Which channel changes places with alpha; 0 for none.
    pub rotation: u8,
    /// The index selection bit.
    pub selection: u8,
    /// Red of the first subset's two ends, of the second's, of the third's; then green, blue and alpha alike.
    pub endpoints: [u8; 18],
    /// The lowest bits of the ends.
    pub p_bits: [u8; 6],
    /// The texels' indices.
    pub primary: [u8; 16],
    /// The texels' indices in modes with two sets.
    pub secondary: [u8; 16],
}

impl Sheet {
    /// All 0.
    pub const ZERO: Sheet = Sheet {
        mode: 0,
        partition: 0,
        rotation: 0,
        selection: 0,
        endpoints: [0; 18],
        p_bits: [0; 6],
        primary: [0; 16],
        secondary: [0; 16],
    };

    /// The flat form: all fields in order.
    pub fn to_numbers(&self) -> [u8; 60] {
        let mut numbers = [0; 60];
        numbers[..4].copy_from_slice(&[self.mode, self.partition, self.rotation, self.selection]);
        numbers[4..22].copy_from_slice(&self.endpoints);
        numbers[22..28].copy_from_slice(&self.p_bits);
        numbers[28..44].copy_from_slice(&self.primary);
        numbers[44..].copy_from_slice(&self.secondary);
        numbers
    }

    /// From the flat form.
    pub fn from_numbers(numbers: &[u8; 60]) -> Sheet {
        Sheet {
            mode: numbers[0],
            partition: numbers[1],
            rotation: numbers[2],
            selection: numbers[3],
            endpoints: std::array::from_fn(|i| numbers[4 + i]),
            p_bits: std::array::from_fn(|i| numbers[22 + i]),
            primary: std::array::from_fn(|i| numbers[28 + i]),
            secondary: std::array::from_fn(|i| numbers[44 + i]),
        }
    }
}

/// A block's sixteen texels as four bytes R, G, B, A each, rows first.
///
/// ```
/// use stallbrook::{Fault, Refusal, bc7};
/// // a first byte of 0 is reserved: fault 71, and every texel is 0, 0, 0, 0
/// let mut texels = [7u8; 64];
/// assert_eq!(bc7::decode_block(&[0; 16], &mut texels), Ok(Some(Fault::Bc7Reserved)));
/// assert_eq!(texels, [0; 64]);
/// // fifteen bytes are no block: refused by 4, and nothing is written
/// assert_eq!(bc7::decode_block(&[1; 15], &mut texels), Err(Refusal::Blocks));
/// ```
pub fn decode_block(block: &[u8], out: &mut [u8]) -> Result<Option<Fault>, Refusal> {
    of_block(raw::decode_block(block, out))
}

/// A picture's texels as four bytes each, rows first; blocks of 4x4 in raster order, edge blocks cropped.
///
/// ```
/// use stallbrook::{Fault, FirstFault, Refusal, bc7};
/// // three texels of a reserved block: 0, 0, 0, 0, and fault 71 is counted
/// let mut texels = [7u8; 12];
/// let tally = bc7::decode_image(3, 1, &[0; 16], &mut texels)?;
/// assert_eq!((tally.faulty, tally.first), (1, Some(FirstFault { block: 0, fault: Fault::Bc7Reserved })));
/// assert_eq!(texels, [0; 12]);
/// assert_eq!(bc7::decode_image(0, 1, &[], &mut []), Err(Refusal::Side));
/// # Ok::<(), Refusal>(())
/// ```
pub fn decode_image(width: u32, height: u32, blocks: &[u8], out: &mut [u8]) -> Result<Tally, Refusal> {
    let mut tally = [0; 3];
    let number = raw::decode_image(width, height, blocks, out, &mut tally);
    Tally::told(number, tally)
}

/// The sheet of a block without fault.
///
/// ```
/// use stallbrook::{Error, Fault, bc7};
/// assert_eq!(bc7::read(&[0x40; 16])?.mode, 6);
/// assert_eq!(bc7::read(&[0; 16]), Err(Error::Faulty(Fault::Bc7Reserved)));
/// # Ok::<(), Error>(())
/// ```
pub fn read(block: &[u8]) -> Result<Sheet, Error> {
    let mut numbers = [0; 60];
    if let Some(fault) = of_block(raw::read_symbolic(block, &mut numbers))? {
        return Err(Error::Faulty(fault));
    }
    Ok(Sheet::from_numbers(&numbers))
}

/// The block of an acceptable sheet.
///
/// ```
/// use stallbrook::{Refusal, bc7};
/// let mut sheet = bc7::Sheet { mode: 8, ..bc7::Sheet::ZERO };
/// assert_eq!(bc7::write(&sheet), Err(Refusal::Bc7Mode));
/// // mode 0 has no rotation
/// sheet.mode = 0;
/// sheet.rotation = 1;
/// assert_eq!(bc7::write(&sheet), Err(Refusal::Bc7Field));
/// ```
pub fn write(sheet: &Sheet) -> Result<[u8; 16], Refusal> {
    let mut block = [0; 16];
    Refusal::told(raw::write_symbolic(&sheet.to_numbers(), &mut block))?;
    Ok(block)
}

//! A picture over lent blocks: a view keeps them beside footprint and sides. It is decoded whole, or asked for one texel by x and y, no block unpacked.

use crate::{Fault, Footprint, Kind, Refusal, Tally};

/// The calls over slices, with plain numbers.
pub mod raw {
    #![allow(missing_docs)]

    unsafe extern "C" {
        /// 0, or 1, 3, 4.
        fn stallbrook_astc_view_refusal(
            footprint: u8, width: u32, height: u32, blocks: *const u8, blocks_len: usize,
        ) -> u8;

        /// 0, the fault of the texel's block, 44 with four zeros, or 5 where `out` is not of four, nothing written.
        fn stallbrook_astc_texel_unorm16(
            footprint: u8, width: u32, height: u32, blocks: *const u8, blocks_len: usize, x: u32, y: u32,
            out: *mut u16, out_len: usize,
        ) -> u8;
        fn stallbrook_astc_texel_srgb8(
            footprint: u8, width: u32, height: u32, blocks: *const u8, blocks_len: usize, x: u32, y: u32, out: *mut u8,
            out_len: usize,
        ) -> u8;
        fn stallbrook_astc_texel_float16(
            footprint: u8, width: u32, height: u32, blocks: *const u8, blocks_len: usize, x: u32, y: u32,
            out: *mut u16, out_len: usize,
        ) -> u8;
    }

    pub fn view_refusal(footprint: u8, width: u32, height: u32, blocks: &[u8]) -> u8 {
        unsafe { stallbrook_astc_view_refusal(footprint, width, height, blocks.as_ptr(), blocks.len()) }
    }

    macro_rules! texel {
        ($name:ident, $call:ident, $number:ty) => {
            #[inline]
            pub fn $name(
                footprint: u8, width: u32, height: u32, blocks: &[u8], x: u32, y: u32, out: &mut [$number],
            ) -> u8 {
                unsafe {
                    $call(footprint, width, height, blocks.as_ptr(), blocks.len(), x, y, out.as_mut_ptr(), out.len())
                }
            }
        };
    }

    texel!(texel_unorm16, stallbrook_astc_texel_unorm16, u16);
    texel!(texel_srgb8, stallbrook_astc_texel_srgb8, u8);
    texel!(texel_float16, stallbrook_astc_texel_float16, u16);
}

/// A texel that was asked for.
#[derive(Clone, Copy, PartialEq, Eq, Debug)]
pub struct Asked<T> {
    /// The fault of the texel's block.
    pub fault: Option<Fault>,
    /// R, G, B, A; with a fault the error colour.
    pub texel: [T; 4],
}

/// A view of lent blocks.
///
/// ```
/// use stallbrook::{Fault, Footprint, Refusal, view::View};
/// // 01's program block, then a block of zeros: two blocks of 4x4, side by side
/// let mut blocks = [0; 32];
/// blocks[..16].copy_from_slice(&[0x42, 0, 0, 0xFE, 1, 0, 0, 0, 0, 0, 0, 0, 0, 0, 0, 0x80]);
/// let view = View::new(&blocks, Footprint::F4x4, 8, 4)?;
/// assert_eq!(view.srgb8(0, 0)?.texel, [84, 84, 84, 255]);
/// assert_eq!(view.unorm16(0, 0)?.texel, [21504, 21504, 21504, 65535]);
///
/// // the second block has a reserved mode: fault 11 and magenta
/// let asked = view.srgb8(4, 3)?;
/// assert_eq!((asked.fault, asked.texel), (Some(Fault::Reserved), [255, 0, 255, 255]));
///
/// // outside the picture
/// assert_eq!(view.srgb8(8, 0), Err(Refusal::Place));
///
/// // one block is missing
/// assert_eq!(View::new(&blocks, Footprint::F4x4, 9, 4), Err(Refusal::Blocks));
/// # Ok::<(), Refusal>(())
/// ```
///
/// The blocks stay borrowed while the view lives:
///
/// ```compile_fail,E0505
/// let blocks = vec![0; 16];
/// let view = stallbrook::view::View::new(&blocks, stallbrook::Footprint::F4x4, 4, 4).unwrap();
/// drop(blocks);
/// view.srgb8(0, 0).unwrap();
/// ```
#[derive(Clone, Copy, PartialEq, Eq, Debug)]
pub struct View<'a> {
    blocks: &'a [u8],
    footprint: Footprint,
    width: u32,
    height: u32,
}

impl<'a> View<'a> {
    /// A view of an image's blocks, in raster order; refused by 1 (a volume footprint), 3 and 4.
    pub fn new(blocks: &'a [u8], footprint: Footprint, width: u32, height: u32) -> Result<View<'a>, Refusal> {
        Refusal::told(raw::view_refusal(footprint.number(), width, height, blocks))?;
        Ok(View { blocks, footprint, width, height })
    }

    /// How many texels a block covers.
    pub fn footprint(&self) -> Footprint {
        self.footprint
    }

    /// In texels.
    pub fn width(&self) -> u32 {
        self.width
    }

    /// In texels.
    pub fn height(&self) -> u32 {
        self.height
    }

    /// All texels as four 16-bit numbers each (kind 0), rows first, and what is told of blocks with a fault.
    ///
    /// ```
    /// use stallbrook::{Footprint, view::View};
    /// let block = [0x42, 0, 0, 0xFE, 1, 0, 0, 0, 0, 0, 0, 0, 0, 0, 0, 0x80];
    /// let view = View::new(&block, Footprint::F4x4, 1, 1)?;
    /// assert_eq!(view.to_unorm16().0, [21504, 21504, 21504, 65535]);
    /// assert_eq!(view.to_srgb8().0, [84, 84, 84, 255]);
    /// assert_eq!(view.to_float16().0, [0x3540, 0x3540, 0x3540, 0x3C00]);
    /// # Ok::<(), stallbrook::Refusal>(())
    /// ```
    pub fn to_unorm16(&self) -> (Vec<u16>, Tally) {
        self.decoded(crate::decode_image_unorm16)
    }

    /// The same as four bytes each, before the sRGB curve (kind 1).
    pub fn to_srgb8(&self) -> (Vec<u8>, Tally) {
        self.decoded(crate::decode_image_srgb8)
    }

    /// The same as four half floats each, as 16-bit patterns (kind 2), HDR taken.
    pub fn to_float16(&self) -> (Vec<u16>, Tally) {
        self.decoded(crate::decode_image_float16)
    }

    /// The fault of each block in a kind, in raster order; no texel is painted.
    ///
    /// ```
    /// use stallbrook::{Fault, Footprint, Kind, view::View};
    /// // an HDR void extent is sound in half floats alone
    /// let block = [0xFC, 0xFF, 0xFF, 0xFF, 0xFF, 0xFF, 0xFF, 0xFF, 0, 0x3C, 0, 0x40, 0, 0x38, 0, 0x3C];
    /// let view = View::new(&block, Footprint::F4x4, 4, 4)?;
    /// assert_eq!(view.faults(Kind::Srgb8), [Some(Fault::HdrVoidExtent)]);
    /// assert_eq!(view.faults(Kind::Float16), [None]);
    /// # Ok::<(), stallbrook::Refusal>(())
    /// ```
    pub fn faults(&self, kind: Kind) -> Vec<Option<Fault>> {
        let mut faults = vec![0; self.blocks.len() / 16];
        crate::image_faults(self.footprint, kind, self.width, self.height, self.blocks, &mut faults)
            .expect("a view's picture is not refused");
        faults.into_iter().map(Fault::told).collect()
    }

    fn decoded<T: Copy + Default>(
        &self, call: impl Fn(Footprint, u32, u32, &[u8], &mut [T]) -> Result<Tally, Refusal>,
    ) -> (Vec<T>, Tally) {
        let mut texels = vec![T::default(); 4 * self.width as usize * self.height as usize];
        let tally = call(self.footprint, self.width, self.height, self.blocks, &mut texels);
        (texels, tally.expect("a view's picture is not refused"))
    }

    /// The texel in column x and row y as four 16-bit numbers (kind 0).
    #[inline]
    pub fn unorm16(&self, x: u32, y: u32) -> Result<Asked<u16>, Refusal> {
        self.asked(x, y, raw::texel_unorm16)
    }

    /// The same as four bytes, before the sRGB curve (kind 1).
    #[inline]
    pub fn srgb8(&self, x: u32, y: u32) -> Result<Asked<u8>, Refusal> {
        self.asked(x, y, raw::texel_srgb8)
    }

    /// The same as four patterns of half floats (kind 2), HDR taken.
    #[inline]
    pub fn float16(&self, x: u32, y: u32) -> Result<Asked<u16>, Refusal> {
        self.asked(x, y, raw::texel_float16)
    }

    #[inline]
    fn asked<T: Copy + Default>(
        &self, x: u32, y: u32, call: impl Fn(u8, u32, u32, &[u8], u32, u32, &mut [T]) -> u8,
    ) -> Result<Asked<T>, Refusal> {
        let mut texel = [T::default(); 4];
        match call(self.footprint.number(), self.width, self.height, self.blocks, x, y, &mut texel) {
            44 => Err(Refusal::Place),
            number => Ok(Asked { fault: Fault::told(number), texel }),
        }
    }
}

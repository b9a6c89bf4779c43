//! Best grey captions: a 4x4 block with two grey ends and weights 0..3 that is nearest to sixteen wanted greys, and whole images of them.

use crate::Refusal;

/// The calls over slices, with plain numbers.
pub mod raw {
    #![allow(missing_docs)]

    unsafe extern "C" {
        /// 0, or 4, 5 where a list is not of sixteen, nothing written.
        fn stallbrook_astc_caption_block(
            e0: u8, e1: u8, wanted: *const u8, wanted_len: usize, block: *mut u8, block_len: usize,
        ) -> u8;

        /// 0, or the refusal 3, 4 or 5, nothing written.
        fn stallbrook_astc_caption_image(
            e0: u8, e1: u8, width: u32, height: u32, wanted: *const u8, wanted_len: usize, blocks: *mut u8,
            blocks_len: usize,
        ) -> u8;
    }

    pub fn caption_block(e0: u8, e1: u8, wanted: &[u8], block: &mut [u8]) -> u8 {
        unsafe { stallbrook_astc_caption_block(e0, e1, wanted.as_ptr(), wanted.len(), block.as_mut_ptr(), block.len()) }
    }

    pub fn caption_image(e0: u8, e1: u8, width: u32, height: u32, wanted: &[u8], blocks: &mut [u8]) -> u8 {
        unsafe {
            stallbrook_astc_caption_image(
                e0,
                e1,
                width,
                height,
                wanted.as_ptr(),
                wanted.len(),
                blocks.as_mut_ptr(),
                blocks.len(),
            )
        }
    }
}

/// The block between two grey ends whose texels in kind 1 have the least summed squared difference from the wanted greys, rows first; among
/// equals the one with the smaller weight at each place. Every input has one. A wanted grey decides its own texel's weight alone.
///
/// ```
/// // 01's program block: the first texel wants 80, which 84 comes nearest, all others 0
/// let mut wanted = [0; 16];
/// wanted[0] = 80;
/// let block = stallbrook::caption::caption_block(0, 255, &wanted);
/// assert_eq!(block, [0x42, 0, 0, 0xFE, 1, 0, 0, 0, 0, 0, 0, 0, 0, 0, 0, 0x80]);
/// let mut texels = [0; 64];
/// stallbrook::decode_block_srgb8(stallbrook::Footprint::F4x4, &block, &mut texels)?;
/// assert_eq!(texels[..8], [84, 84, 84, 255, 0, 0, 0, 255]);
/// # Ok::<(), stallbrook::Refusal>(())
/// ```
pub fn caption_block(e0: u8, e1: u8, wanted: &[u8; 16]) -> [u8; 16] {
    let mut block = [0; 16];
    raw::caption_block(e0, e1, wanted, &mut block);
    block
}

/// The 4x4 blocks of an image between two grey ends, one wanted grey for each texel, rows first. Beyond the image an edge block takes the
/// nearest wanted grey, which changes no texel that is shown.
///
/// ```
/// // a strip of 1,024 by 64 texels is one call
/// let wanted: Vec<u8> = (0..64 * 1024).map(|i| (i % 1024 / 4) as u8).collect();
/// let mut blocks = vec![0; 16 * 16 * 256];
/// stallbrook::caption::caption_image(0, 255, 1024, 64, &wanted, &mut blocks)?;
/// let mut texels = vec![0; 4 * 64 * 1024];
/// let tally = stallbrook::decode_image_srgb8(stallbrook::Footprint::F4x4, 1024, 64, &blocks, &mut texels)?;
/// assert_eq!(tally.faulty, 0);
/// assert_eq!((texels[0], texels[4 * 1023]), (0, 255));
///
/// // one wanted grey is missing
/// let refused = stallbrook::caption::caption_image(0, 255, 4, 4, &[0; 15], &mut [0; 16]);
/// assert_eq!(refused, Err(stallbrook::Refusal::Length));
/// # Ok::<(), stallbrook::Refusal>(())
/// ```
pub fn caption_image(e0: u8, e1: u8, width: u32, height: u32, wanted: &[u8], blocks: &mut [u8]) -> Result<(), Refusal> {
    Refusal::told(raw::caption_image(e0, e1, width, height, wanted, blocks))
}

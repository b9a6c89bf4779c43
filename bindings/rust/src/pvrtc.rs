//! PVRTC1 at 4 bits per pixel: images of 64-bit words in reflected Morton order to texels.

use crate::Refusal;

/// The call over slices, with plain numbers.
pub mod raw {
    #![allow(missing_docs)]

    unsafe extern "C" {
        /// 0, or the refusal 61, 4 or 5, nothing written.
        fn stallbrook_pvrtc_decode_image(
            width: u32, height: u32, words: *const u8, words_len: usize, out: *mut u8, out_len: usize,
        ) -> u8;
    }

    pub fn decode_image(width: u32, height: u32, words: &[u8], out: &mut [u8]) -> u8 {
        unsafe {
            stallbrook_pvrtc_decode_image(width, height, words.as_ptr(), words.len(), out.as_mut_ptr(), out.len())
        }
    }
}

/// An image's texels as four bytes each, R, G, B, A, rows first; no sRGB curve is applied. Sides are powers of two from 4 to 4,096, `words`
/// has eight bytes for each 4 by 4 texels, `out` four for each texel.
///
/// ```
/// // one word: colour A opaque and black, colour B opaque and white; the first texel has all of B
/// let word = 0xFFFF_8000_0000_0003u64.to_le_bytes();
/// let mut texels = [7u8; 4 * 16];
/// stallbrook::pvrtc::decode_image(4, 4, &word, &mut texels)?;
/// assert_eq!(texels[..8], [255, 255, 255, 255, 0, 0, 0, 255]);
///
/// // a side of 2 is refused by 61, and nothing is written
/// let mut few = [7u8; 4 * 8];
/// let refused = stallbrook::pvrtc::decode_image(4, 2, &word, &mut few).unwrap_err();
/// assert_eq!(refused, stallbrook::Refusal::PvrtcSide);
/// assert_eq!(refused.to_string(), "a side is not a power of two from 4 to 4,096");
/// assert_eq!(few, [7; 4 * 8]);
/// # Ok::<(), stallbrook::Refusal>(())
/// ```
pub fn decode_image(width: u32, height: u32, words: &[u8], out: &mut [u8]) -> Result<(), Refusal> {
    Refusal::told(raw::decode_image(width, height, words, out))
}

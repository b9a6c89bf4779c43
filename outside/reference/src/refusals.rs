//! Refusals of the calls, first that holds (01, "Numbers told to the caller").

use crate::{ALL_FOOTPRINTS, FOOTPRINTS, sides, texels};

/// Sides of a picture that are not refused by 3 (02, e).
pub(crate) const SIDES: std::ops::RangeInclusive<u32> = 1..=16384;
/// Depths of a volume that are not (02, h).
const DEPTHS: std::ops::RangeInclusive<u32> = 1..=2048;

/// The one-block call: 1, 4, 5.
pub fn block_refusal(footprint: usize, block_len: usize, out_len: usize) -> u8 {
    match read_refusal(footprint, block_len) {
        0 if out_len != 4 * texels(footprint) => 5,
        refusal => refusal,
    }
}

/// Making a view: 1, 3, 4 (02, f).
pub fn view_refusal(footprint: usize, width: u32, height: u32, blocks_len: usize) -> u8 {
    if footprint > 13 {
        return 1;
    }
    if !SIDES.contains(&width) || !SIDES.contains(&height) {
        return 3;
    }
    let (w, h) = FOOTPRINTS[footprint];
    if blocks_len != 16 * (width as usize).div_ceil(w) * (height as usize).div_ceil(h) { 4 } else { 0 }
}

/// The image call: 1, 3, 4, 5.
pub fn image_refusal(footprint: usize, width: u32, height: u32, blocks_len: usize, out_len: usize) -> u8 {
    match view_refusal(footprint, width, height, blocks_len) {
        0 if out_len != 4 * width as usize * height as usize => 5,
        refusal => refusal,
    }
}

/// The volume call: 1, 3, 4, 5.
pub fn volume_refusal(footprint: usize, [w, h, d]: [u32; 3], blocks_len: usize, out_len: usize) -> u8 {
    if footprint >= ALL_FOOTPRINTS {
        return 1;
    }
    if !SIDES.contains(&w) || !SIDES.contains(&h) || !DEPTHS.contains(&d) {
        return 3;
    }
    let size = [w as usize, h as usize, d as usize];
    let blocks: usize = size.iter().zip(sides(footprint)).map(|(side, block)| side.div_ceil(block)).product();
    if blocks_len != 16 * blocks {
        4
    } else if out_len != 4 * size.iter().product::<usize>() {
        5
    } else {
        0
    }
}

/// The reader of symbolic blocks: 1, 4.
pub fn read_refusal(footprint: usize, block_len: usize) -> u8 {
    if footprint >= ALL_FOOTPRINTS {
        1
    } else if block_len != 16 {
        4
    } else {
        0
    }
}

//! PVRTC1: 1,024 by 1,024 texels, random words.

use crate::{SEED, SIDE, measure};
use reference::pvrtc::decode_image;
use reference::random::Random;

pub fn ratios(rounds: usize) -> [f64; 2] {
    let mut r = Random(SEED);
    let words: Vec<u8> = (0..SIDE * SIDE / 2).map(|_| r.below(256) as u8).collect();
    let (mut ours, mut theirs) = (vec![1u8; 4 * SIDE * SIDE], vec![2u8; 4 * SIDE * SIDE]);
    let side = SIDE as u32;
    let answer = library::pvrtc::raw::decode_image(side, side, &words, &mut ours);
    decode_image(SIDE, SIDE, &words, &mut theirs);
    assert!(answer == 0 && ours == theirs, "PVRTC1: not the same texels");
    measure(
        "PVRTC1",
        rounds,
        || {
            library::pvrtc::raw::decode_image(side, side, &words, &mut ours);
        },
        || decode_image(SIDE, SIDE, &words, &mut theirs),
    )
}

//! The volume calls against the reference's: 128 by 128 by 128 texels of LDR mode blocks of all sorts, which the library wrote.

use library::raw::{decode_volume_srgb8, decode_volume_unorm16};
use reference::random::mode_block;
use reference::{Tally, decode_volume_u8, decode_volume_u16, sides};

use crate::image::written;
use crate::{largest, measure};

const SIDE: usize = 128;

fn row<T: Copy + PartialEq + From<u8>>(
    rounds: usize, footprint: usize, kind: u8, ours: fn(u8, u32, u32, u32, &[u8], &mut [T], &mut [u64]) -> u8,
    theirs: fn(usize, [usize; 3], &[u8], &mut [T]) -> Tally,
) -> [f64; 2] {
    let [w, h, d] = sides(footprint);
    let name = format!("volume of {SIDE} cubed, {w}x{h}x{d} kind {kind}");
    let count = [w, h, d].iter().map(|side| SIDE.div_ceil(*side)).product();
    let blocks = written(footprint, count, |r, _| mode_block(r, footprint));
    let [mut a, mut b] = [1, 2].map(|n| vec![T::from(n); 4 * SIDE * SIDE * SIDE]);
    let (side, mut tally) = (SIDE as u32, [9; 3]);
    assert_eq!(ours(footprint as u8, side, side, side, &blocks, &mut a, &mut tally), 0);
    assert_eq!(theirs(footprint, [SIDE; 3], &blocks, &mut b), Tally::default());
    assert!(a == b && tally == [0; 3], "{name}: not the same texels");
    measure(
        &name,
        rounds,
        || {
            ours(footprint as u8, side, side, side, &blocks, &mut a, &mut tally);
        },
        || {
            theirs(footprint, [SIDE; 3], &blocks, &mut b);
        },
    )
}

pub fn run(rounds: usize) -> [f64; 2] {
    // 4x4x4 and 6x6x6
    [17, 23].into_iter().fold([0.0; 2], |worst, f| {
        let worst = largest(worst, row(rounds, f, 0, decode_volume_unorm16, decode_volume_u16));
        largest(worst, row(rounds, f, 1, decode_volume_srgb8, decode_volume_u8))
    })
}

//! The faults of an image against decoding it, and against the reference's faults block by block.

use std::hint::black_box;

use reference::{FOOTPRINTS, Kind, fault};

use crate::{SIDE, blocks, measure, median, timed};

pub fn run(rounds: usize) -> [f64; 2] {
    let mut worst = [0f64; 2];
    let side = SIDE as u32;
    for footprint in [0, 4] {
        let (w, h) = FOOTPRINTS[footprint];
        let blocks = blocks(footprint);
        let mut tally = [0; 3];
        let (mut ours, mut theirs) = (vec![1u8; blocks.len() / 16], vec![2u8; blocks.len() / 16]);
        let list = |out: &mut [u8]| {
            for (place, block) in out.iter_mut().zip(blocks.as_chunks::<16>().0) {
                *place = fault(footprint, Kind::Srgb8, block);
            }
        };
        library::raw::image_faults(footprint as u8, 1, side, side, &blocks, &mut ours, &mut tally);
        list(&mut theirs);
        assert!(ours == theirs, "{w}x{h}: not the same faults");
        let ratio = measure(
            &format!("{w}x{h} faults of an image"),
            rounds,
            || {
                library::raw::image_faults(footprint as u8, 1, side, side, &blocks, &mut ours, &mut tally);
            },
            || list(black_box(&mut theirs)),
        );
        worst = crate::largest(worst, ratio);
        let mut frame = vec![1u8; 4 * SIDE * SIDE];
        let mut times = [Vec::new(), Vec::new()];
        for _ in 0..rounds {
            times[0].push(timed(|| {
                library::raw::image_faults(footprint as u8, 1, side, side, &blocks, &mut ours, &mut tally);
            }));
            times[1].push(timed(|| {
                library::raw::decode_image_srgb8(footprint as u8, side, side, &blocks, &mut frame, &mut tally);
            }));
        }
        let [faults, image] = times.map(median);
        println!("{w}x{h}: the faults of an image take 1/{:.1} of the image call's time in kind 1", image / faults);
    }
    worst
}

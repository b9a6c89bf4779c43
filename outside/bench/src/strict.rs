//! The strict reading of an image against the ordinary one, and against the second implementation's test of every block.

use std::hint::black_box;

use reference::{FOOTPRINTS, Kind, strict_fault};

use crate::{SIDE, blocks, largest, measure, median, timed};

pub fn run(rounds: usize) -> [f64; 2] {
    let mut worst = [0f64; 2];
    let side = SIDE as u32;
    for footprint in [0, 4, 13] {
        let (w, h) = FOOTPRINTS[footprint];
        let blocks = blocks(footprint);
        let (mut frame, mut tally) = (vec![1u8; 4 * SIDE * SIDE], [0; 3]);
        let mut times = [Vec::new(), Vec::new(), Vec::new()];
        let mut out = vec![0; blocks.len()];
        for _ in 0..rounds {
            times[0].push(timed(|| {
                library::raw::strict_decode_image_srgb8(footprint as u8, side, side, &blocks, &mut frame, &mut tally);
            }));
            times[1].push(timed(|| {
                library::raw::decode_image_srgb8(footprint as u8, side, side, &blocks, &mut frame, &mut tally);
            }));
            times[2].push(timed(|| {
                library::raw::canonical_image(footprint as u8, side, side, &blocks, &mut out, &mut tally);
            }));
        }
        assert!(tally == [0; 3] && out == blocks, "{w}x{h}: the writer's blocks are canonical");
        let [strict, ordinary, canonical] = times.map(median);
        println!(
            "{w}x{h} kind 1: a strict image takes {:.2} of an ordinary one's time, {:.2} ms; rewriting its blocks {:.2} ms",
            strict / ordinary,
            strict,
            canonical
        );
        let (mut ours, mut theirs) = (vec![1u8; blocks.len() / 16], vec![2u8; blocks.len() / 16]);
        let list = |out: &mut [u8]| {
            for (place, block) in out.iter_mut().zip(blocks.as_chunks::<16>().0) {
                *place = strict_fault(footprint, Kind::Srgb8, block);
            }
        };
        library::raw::strict_image_faults(footprint as u8, 1, side, side, &blocks, &mut ours, &mut tally);
        list(&mut theirs);
        assert!(ours == theirs, "{w}x{h}: not the same strict faults");
        let ratio = measure(
            &format!("{w}x{h} strict faults of an image"),
            rounds,
            || {
                library::raw::strict_image_faults(footprint as u8, 1, side, side, &blocks, &mut ours, &mut tally);
            },
            || list(black_box(&mut theirs)),
        );
        worst = largest(worst, ratio);
    }
    worst
}

//! One texel of an image: a window of 17 by 17 texels at random places, each texel asked by itself, against the reference's engine, against
//! decoding the frame, and against the one-block call.

use std::hint::black_box;

use reference::random::Random;
use reference::{FOOTPRINTS, Kind, ask};

use crate::{SEED, SIDE, blocks, largest, measure, median, timed};

const WINDOW: usize = 17;
const WINDOWS: usize = 50;

/// The ratios to the reference; prints how much faster a window is than the frame, and a texel than a block.
pub fn run(rounds: usize) -> [f64; 2] {
    let mut worst = [0f64; 2];
    let side = SIDE as u32;
    for footprint in [4, 13] {
        let (w, h) = FOOTPRINTS[footprint];
        let blocks = blocks(footprint);
        let mut r = Random(SEED);
        let corners: Vec<_> = (0..WINDOWS).map(|_| (r.below(SIDE - WINDOW), r.below(SIDE - WINDOW))).collect();
        let places: Vec<(u32, u32)> = corners
            .iter()
            .flat_map(|&(x, y)| (0..WINDOW * WINDOW).map(move |i| ((x + i % WINDOW) as u32, (y + i / WINDOW) as u32)))
            .collect();
        let view = library::view::View::new(&blocks, (footprint as u8).try_into().unwrap(), side, side).unwrap();
        let sum = |texel: [u16; 4]| texel.iter().map(|&n| n as u64).sum::<u64>();
        let ours = || places.iter().map(|&(x, y)| sum(view.unorm16(x, y).unwrap().texel)).sum::<u64>();
        let theirs = || {
            places.iter().map(|&(x, y)| sum(ask(footprint, Kind::Unorm16, side, side, &blocks, x, y).1)).sum::<u64>()
        };
        assert_eq!(ours(), theirs(), "{w}x{h}, windows: not the same texels");
        let name = format!("{WINDOWS} windows of {WINDOW} by {WINDOW} texels, {w}x{h}");
        worst = largest(
            worst,
            measure(
                &name,
                rounds,
                || {
                    black_box(ours());
                },
                || {
                    black_box(theirs());
                },
            ),
        );

        let (mut frame, mut tally) = (vec![1u16; 4 * SIDE * SIDE], [0; 3]);
        let mut texels = vec![1u16; 4 * w * h];
        let mut times = [Vec::new(), Vec::new(), Vec::new()];
        for _ in 0..rounds {
            times[0].push(timed(|| {
                black_box(ours());
            }));
            times[1].push(timed(|| {
                library::raw::decode_image_unorm16(footprint as u8, side, side, &blocks, &mut frame, &mut tally);
            }));
            times[2].push(timed(|| {
                for block in blocks.chunks(16).take(5000) {
                    library::raw::decode_block_unorm16(footprint as u8, block, &mut texels);
                }
            }));
        }
        let [windows, frame, decoded] = times.map(median);
        let (window, texel) = (windows / WINDOWS as f64, windows / places.len() as f64);
        println!(
            "{w}x{h}: a window {:.1} microseconds, 1/{:.0} of the frame; a texel {:.0} ns, {:.2} of a block by the block call",
            1e3 * window,
            frame / window,
            1e6 * texel,
            texel / (decoded / 5000.0)
        );
    }
    worst
}

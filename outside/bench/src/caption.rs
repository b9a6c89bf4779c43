//! Best grey captions: a strip of 1,024 by 64 texels, random greys between 0 and 255, in one call, against the writer's own time for the
//! same 4,096 blocks. What is reported is the time for a block, and how much of it goes beyond the writer's.

use reference::random::Random;

use crate::{SEED, median, timed};

const WIDTH: usize = 1024;
const HEIGHT: usize = 64;
const BLOCKS: usize = WIDTH * HEIGHT / 16;

pub fn measure(rounds: usize) {
    let mut r = Random(SEED);
    let wanted: Vec<u8> = (0..WIDTH * HEIGHT).map(|_| r.below(256) as u8).collect();
    let (mut ours, mut written) = (vec![1u8; 16 * BLOCKS], vec![2u8; 16 * BLOCKS]);
    let call = |out: &mut [u8]| library::caption::raw::caption_image(0, 255, WIDTH as u32, HEIGHT as u32, &wanted, out);
    assert_eq!(call(&mut ours), 0);
    let sheets: Vec<[u16; library::NUMBERS]> = ours
        .chunks(16)
        .map(|block| library::read_symbolic(library::Footprint::F4x4, block).expect("no fault").to_numbers())
        .collect();
    let write = |out: &mut [u8]| {
        for (sheet, block) in sheets.iter().zip(out.chunks_mut(16)) {
            library::raw::write_symbolic(0, sheet, block);
        }
    };
    write(&mut written);
    assert!(ours == written, "captions: not the writer's blocks");
    let (mut calls, mut writes, mut beyond) = (Vec::new(), Vec::new(), Vec::new());
    for _ in 0..rounds {
        let time = timed(|| {
            call(&mut ours);
        });
        let writer = timed(|| write(&mut written));
        calls.push(time);
        writes.push(writer);
        beyond.push(time - writer);
    }
    let each = |times: Vec<f64>| median(times) * 1e3 / BLOCKS as f64;
    println!(
        "captions, {WIDTH} by {HEIGHT}: {:.3} microseconds for each block, the writer alone {:.3}, beyond it {:.3}",
        each(calls),
        each(writes),
        each(beyond),
    );
}

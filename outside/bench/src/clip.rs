//! Time of feeding a clip: 300 frames of 1,024 by 1,024 texels at 6x6, in pieces of 1, 7, 1,400 and 65,536 bytes, against decoding its blocks.
//!
//! The clip is one frame that stands 300 times; its blocks are decoded by the image call in kind 0, of which one frame is measured. Pieces of
//! 1 and 7 bytes are measured over ten frames.

use library::clip::{Clip, Frame, write_frame};
use library::{Footprint, Kind};

use crate::{SIDE, blocks, median, timed};

const FOOTPRINT: usize = 4;
const FRAMES: usize = 300;

/// Feeds frames in pieces of so many bytes; answers the blocks handed out and a sum of their bytes.
fn feed(frame: &[u8], frames: usize, size: usize) -> (usize, u64) {
    let mut clip = Clip::new();
    let (mut count, mut sum) = (0, 0);
    // A piece is kept in a buffer of its own, as a radio would fill it.
    let mut piece = Vec::with_capacity(size);
    let mut give = |piece: &[u8]| {
        for block in clip.blocks(piece) {
            let block = block.expect("a sound clip");
            count += 1;
            sum += block.bytes[15] as u64 + block.index as u64;
        }
    };
    piece.push(1);
    for _ in 0..frames {
        let mut rest = frame;
        while !rest.is_empty() {
            let n = (size - piece.len()).min(rest.len());
            piece.extend_from_slice(&rest[..n]);
            rest = &rest[n..];
            if piece.len() == size {
                give(&piece);
                piece.clear();
            }
        }
    }
    give(&piece);
    clip.finish().expect("whole frames");
    (count, sum)
}

pub fn measure(rounds: usize) {
    let blocks = blocks(FOOTPRINT);
    let n = blocks.len() / 16;
    let side = SIDE as u32;
    let said = Frame { footprint: Footprint::F6x6, kind: Kind::Unorm16, width: side, height: side };
    let mut frame = vec![0; 10 + blocks.len()];
    write_frame(said, &blocks, &mut frame).expect("a sound frame");

    let mut out = vec![1u16; 4 * SIDE * SIDE];
    let mut tally = [0; 3];
    let mut decode = || {
        library::raw::decode_image_unorm16(FOOTPRINT as u8, side, side, &blocks, &mut out, &mut tally);
    };
    decode();
    for size in [1, 7, 1400, 65536] {
        let frames = if size < 1000 { 10 } else { FRAMES };
        assert_eq!(feed(&frame, 2, size).0, 2 * n);
        let (mut fed, mut ratios) = (Vec::new(), Vec::new());
        for _ in 0..rounds {
            let decoded = timed(&mut decode);
            let mut handed = (0, 0);
            let time = timed(|| handed = feed(&frame, frames, size)) / frames as f64;
            assert_eq!(handed.0, frames * n);
            fed.push(time);
            ratios.push(time / decoded);
        }
        let (time, ratio) = (median(fed), median(ratios));
        println!(
            "clip, pieces of {size}: {:.2} ns for each byte, {:.1} ns for each block; feeding / decoding the blocks {ratio:.4}",
            time * 1e6 / frame.len() as f64,
            time * 1e6 / n as f64,
        );
    }
}

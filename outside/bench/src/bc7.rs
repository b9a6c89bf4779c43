//! BC7: 1,024 by 1,024 texels, block after block by the one-block call, and as one picture, against the reference's. Blocks of all modes equally often, each
//! written by the library's writer from a random sheet.

use reference::bc7::{decode_block, decode_image, random_sheet};
use reference::random::Random;

use crate::{SEED, SIDE, measure};

pub fn run(rounds: usize) -> [f64; 2] {
    let mut r = Random(SEED);
    let mut blocks = vec![[0u8; 16]; SIDE / 4 * (SIDE / 4)];
    for block in &mut blocks {
        let mode = r.below(8) as u8;
        let sheet = random_sheet(&mut r, mode);
        assert_eq!(library::bc7::raw::write_symbolic(&sheet.to_numbers(), block), 0);
    }
    let (mut ours, mut theirs) = (vec![[1u8; 64]; blocks.len()], vec![[2u8; 64]; blocks.len()]);
    let mut library = || {
        for (block, out) in blocks.iter().zip(&mut ours) {
            library::bc7::raw::decode_block(block, out);
        }
    };
    let mut reference = || {
        for (block, out) in blocks.iter().zip(&mut theirs) {
            decode_block(block, out);
        }
    };
    library();
    reference();
    let ratios = measure("BC7 block by block", rounds, library, reference);
    assert!(ours == theirs, "BC7: not the same texels");
    let pictures = picture(rounds, blocks.as_flattened());
    [ratios[0].max(pictures[0]), ratios[1].max(pictures[1])]
}

/// The same blocks as one picture.
fn picture(rounds: usize, blocks: &[u8]) -> [f64; 2] {
    let side = SIDE as u32;
    let (mut ours, mut theirs, mut tally) = (vec![1u8; 4 * SIDE * SIDE], vec![2u8; 4 * SIDE * SIDE], [0; 3]);
    let library = || {
        assert_eq!(library::bc7::raw::decode_image(side, side, blocks, &mut ours, &mut tally), 0);
    };
    let reference = || {
        decode_image(side, side, blocks, &mut theirs);
    };
    let ratios = measure("BC7 picture", rounds, library, reference);
    assert!(ours == theirs && tally == [0; 3], "BC7 picture: not the same texels");
    ratios
}

//! 02, n, by trying: the best weights of a grey caption, each block written and shown by the writer and the decoder here.

use crate::{SymbolicBlock, decode_u8, write};

/// The block with these ends and weights: 4x4 footprint, one partition, one plane, mode 0, grid 4x4, range field 2.
pub fn block_with(e0: u8, e1: u8, weights: &[u8; 16]) -> [u8; 16] {
    let mut s = SymbolicBlock::ZERO;
    [s.width, s.height, s.depth, s.range, s.planes, s.partitions] = [4, 4, 1, 2, 1, 1];
    [s.endpoints[0], s.endpoints[1]] = [e0 as u16, e1 as u16];
    for (to, &weight) in s.weights.iter_mut().zip(weights) {
        *to = weight as u16;
    }
    write(0, &s).expect("an acceptable symbolic block")
}

/// What kind 1 shows of a block: the sixteen greys.
pub fn shown(block: &[u8; 16]) -> [u8; 16] {
    let mut texels = [0; 64];
    assert_eq!(decode_u8(0, block, &mut texels), 0);
    std::array::from_fn(|i| {
        let [r, g, b, a] = [0, 1, 2, 3].map(|c| texels[4 * i + c]);
        assert!(r == g && g == b && a == 255, "not a grey: {r} {g} {b} {a}");
        r
    })
}

/// The summed squared difference.
pub fn difference(greys: &[u8; 16], wanted: &[u8; 16]) -> u32 {
    greys.iter().zip(wanted).map(|(&a, &b)| (a as i32 - b as i32).pow(2) as u32).sum()
}

/// The best weights, by trying the four at each place; the whole block is written, shown and compared each time.
pub fn weights(e0: u8, e1: u8, wanted: &[u8; 16]) -> [u8; 16] {
    let mut best = [0; 16];
    for place in 0..16 {
        let tried = (0..4).map(|weight| {
            let mut weights = best;
            weights[place] = weight;
            (difference(&shown(&block_with(e0, e1, &weights)), wanted), weight)
        });
        best[place] = tried.min().expect("four").1;
    }
    best
}

pub fn block(e0: u8, e1: u8, wanted: &[u8; 16]) -> [u8; 16] {
    block_with(e0, e1, &weights(e0, e1, wanted))
}

/// Whether some choice at two places at once does better than the weights, or as well with a smaller weight at one of them.
pub fn better_pair(e0: u8, e1: u8, wanted: &[u8; 16], weights: &[u8; 16]) -> Option<(usize, usize)> {
    let greys = [0, 1, 2, 3].map(|weight| shown(&block_with(e0, e1, &[weight; 16]))[0]);
    let of = |weights: &[u8; 16]| difference(&weights.map(|w| greys[w as usize]), wanted);
    let best = of(weights);
    let pairs = (0..16).flat_map(|i| (0..i).map(move |j| (i, j)));
    pairs.into_iter().find(|&(i, j)| {
        (0..16).any(|both| {
            let mut tried = *weights;
            (tried[i], tried[j]) = (both / 4, both % 4);
            let difference = of(&tried);
            difference < best || difference == best && (tried[i] < weights[i] || tried[j] < weights[j])
        })
    })
}

/// The refusal of an image call, 0 for none: 3, then 4, then 5.
pub fn refusal(width: u32, height: u32, wanted_len: usize, blocks_len: usize) -> u8 {
    let fits = |side: u32| (1..=16384).contains(&side);
    if !fits(width) || !fits(height) {
        return 3;
    }
    let (width, height) = (width as usize, height as usize);
    if blocks_len != 16 * width.div_ceil(4) * height.div_ceil(4) {
        4
    } else if wanted_len != width * height {
        5
    } else {
        0
    }
}

/// The blocks of an image that is not refused; edge blocks take the nearest wanted grey.
pub fn image(e0: u8, e1: u8, width: usize, height: usize, wanted: &[u8]) -> Vec<u8> {
    let mut blocks = Vec::new();
    for top in (0..height).step_by(4) {
        for left in (0..width).step_by(4) {
            let greys =
                std::array::from_fn(|i| wanted[(top + i / 4).min(height - 1) * width + (left + i % 4).min(width - 1)]);
            blocks.extend(block(e0, e1, &greys));
        }
    }
    blocks
}

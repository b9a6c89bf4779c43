//! One texel of a block or of an image, its block not unpacked (02, f): the settings, the weights around the texel's place, its partition,
//! and that partition's endpoint numbers.

use crate::block::{ModeSettings, Settings, numbers_of_mode, parse_as};
use crate::colour::{Pattern, grid_factors, grid_place};
use crate::decode::{Float16, Show, Srgb8, Unorm16, first_largest, pair};
use crate::hdr::hdr_channels;
use crate::refusals::view_refusal;
use crate::sequence::{QUINT_STEPS, TRIT_STEPS, bit_count};
use crate::tables::{Digit, ENDPOINT_RANGES, ENDPOINTS, Encoding, QUINTS, TRITS, WEIGHT_RANGES, WEIGHTS};
use crate::{FOOTPRINTS, Kind};

/// The b low bits of number k of a group, and the group's code.
#[inline]
fn parts<const N: usize>(mut group: u64, b: u32, steps: [u32; N], k: usize) -> (u64, usize) {
    let (mut own, mut code, mut at) = ([0; N], 0, 0);
    for (own, step) in own.iter_mut().zip(steps) {
        *own = group & ((1 << b) - 1);
        group >>= b;
        code |= (group & ((1 << step) - 1)) << at;
        group >>= step;
        at += step;
    }
    (own[k], code as usize)
}

/// Number i of a sequence, from its group alone; `stream` has no bits past the sequence's end.
#[inline]
fn number(encoding: Encoding, stream: u128, i: usize) -> usize {
    let b = encoding.bits;
    let group = |size: usize, code: u32| (stream >> ((i / size) as u32 * (code + size as u32 * b))) as u64;
    match encoding.digit {
        Digit::None => (group(1, 0) & ((1 << b) - 1)) as usize,
        Digit::Trit => {
            let (own, code) = parts(group(5, 8), b, TRIT_STEPS, i % 5);
            (TRITS[code & 255][i % 5] as usize) << b | own as usize
        }
        Digit::Quint => {
            let (own, code) = parts(group(3, 7), b, QUINT_STEPS, i % 3);
            (QUINTS[code & 127][i % 3] as usize) << b | own as usize
        }
    }
}

/// The first n numbers' bits.
fn cut(encoding: Encoding, n: usize, stream: u128) -> u128 {
    stream & ((1 << bit_count(encoding, n as u32)) - 1)
}

fn mode_texel<K: Show>(footprint: usize, block: u128, m: &ModeSettings, x: usize, y: usize) -> [K::Number; 4] {
    let (width, height) = FOOTPRINTS[footprint];
    let (grid_width, planes) = (m.grid.width as usize, m.grid.planes as usize);
    let (js, fs) = grid_place(width, grid_width, x);
    let (jt, ft) = grid_place(height, m.grid.height as usize, y);
    let factors = grid_factors(fs, ft);
    let (range, table) = (WEIGHT_RANGES[m.grid.range as usize], &WEIGHTS[m.grid.range as usize]);
    let stream = cut(range, m.weight_count, block.reverse_bits());
    let infill = |plane: usize| {
        let mut sum = 8;
        for (k, factor) in factors.into_iter().enumerate() {
            // a neighbour outside the grid has factor 0 and is not read
            if factor > 0 {
                let at = (jt + k / 2) * grid_width + js + k % 2;
                sum += table[number(range, stream, at * planes + plane) & 31] as u32 * factor;
            }
        }
        (sum >> 4) as i32
    };
    let mut weights = [infill(0); 4];
    if planes == 2 {
        weights[m.plane_channel] = infill(1);
    }

    let partition = if m.partitions == 1 {
        0
    } else {
        first_largest(&Pattern::new(m.index, m.partitions, width * height < 31), x as u32, y as u32)
    };
    let mode = m.modes[partition];
    let first: usize = m.modes[..partition].iter().map(|&mode| numbers_of_mode(mode)).sum();
    let (range, table) = (ENDPOINT_RANGES[m.endpoint_range], &ENDPOINTS[m.endpoint_range]);
    let stream = cut(range, m.endpoint_count, block >> m.endpoint_start);
    let mut numbers = [0; 8];
    for (k, level) in numbers[..numbers_of_mode(mode)].iter_mut().enumerate() {
        *level = table[number(range, stream, first + k) & 255];
    }
    let [c0, c1] = pair::<K>(mode, &numbers);
    let hdr = hdr_channels(mode);
    std::array::from_fn(|c| K::from_sum(hdr[c], 64 * c0[c] + 32 + (c1[c] - c0[c]) * weights[c]))
}

fn block_texel<K: Show>(footprint: usize, block: &[u8; 16], x: usize, y: usize) -> (u8, [K::Number; 4]) {
    let block = u128::from_le_bytes(*block);
    match parse_as::<false>(footprint, K::KIND.takes_hdr(), block) {
        Err(fault) => (fault, K::ERROR),
        Ok(Settings::VoidExtent { hdr, colours, .. }) => (0, colours.map(|c| K::from_solid(hdr, c))),
        Ok(Settings::Mode(m)) => (0, mode_texel::<K>(footprint, block, &m, x, y)),
    }
}

/// One texel of an image: the fault of its block, 0 for none, and its numbers; 44 and zeros outside the picture, or for blocks of which no
/// view could be made.
pub fn ask(footprint: usize, kind: Kind, width: u32, height: u32, blocks: &[u8], x: u32, y: u32) -> (u8, [u16; 4]) {
    if view_refusal(footprint, width, height, blocks.len()) != 0 || x >= width || y >= height {
        return (44, [0; 4]);
    }
    let (w, h) = FOOTPRINTS[footprint];
    let (x, y) = (x as usize, y as usize);
    let index = y / h * (width as usize).div_ceil(w) + x / w;
    let block = &blocks.as_chunks::<16>().0[index];
    let (x, y) = (x % w, y % h);
    match kind {
        Kind::Unorm16 => block_texel::<Unorm16>(footprint, block, x, y),
        Kind::Srgb8 => {
            let (fault, texel) = block_texel::<Srgb8>(footprint, block, x, y);
            (fault, texel.map(u16::from))
        }
        Kind::Float16 => block_texel::<Float16>(footprint, block, x, y),
    }
}

#[cfg(test)]
mod tests {
    use super::*;
    use crate::sequence::unpack;

    /// Each number alone is that of the whole sequence.
    #[test]
    fn numbers_alone() {
        let mut seed = 1u128;
        for encoding in WEIGHT_RANGES.into_iter().chain(ENDPOINT_RANGES) {
            for count in 1..=64 {
                if bit_count(encoding, count) > 120 {
                    continue;
                }
                seed = seed.wrapping_mul(0x2360_ED05_1FC6_5DA4_4385_DF64_9FCC_F645).wrapping_add(1);
                let stream = cut(encoding, count as usize, seed);
                unpack(encoding, count as usize, seed, |i, v| assert_eq!(number(encoding, stream, i), v as usize));
            }
        }
    }
}

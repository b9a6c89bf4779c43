//! Seeded random numbers, blocks and symbolic blocks for tests.

use crate::block::{Extents, Settings, is_hdr, parse};
use crate::hdr::{submode, submodes};
use crate::sequence::{QUINT_STEPS, TRIT_STEPS, bit_count, smallest_code};
use crate::symbolic::{partition_at, write_by};
use crate::tables::{BLOCK_MODES, BlockMode, Digit, ENDPOINT_RANGES, Grid, QUINTS, TRITS, WEIGHT_RANGES};
use crate::{ALL_FOOTPRINTS, FOOTPRINTS, SymbolicBlock, is_volume, refusal, sides};

/// SplitMix64.
#[derive(Clone)]
pub struct Random(pub u64);

impl Random {
    pub fn word(&mut self) -> u64 {
        self.0 = self.0.wrapping_add(0x9E3779B97F4A7C15);
        let mut z = self.0;
        z = (z ^ z >> 30).wrapping_mul(0xBF58476D1CE4E5B9);
        z = (z ^ z >> 27).wrapping_mul(0x94D049BB133111EB);
        z ^ z >> 31
    }

    /// A number below n (n under 2^32).
    pub fn below(&mut self, n: usize) -> usize {
        (((self.word() >> 32) * n as u64) >> 32) as usize
    }

    /// True once in n times.
    pub fn once_in(&mut self, n: usize) -> bool {
        self.below(n) == 0
    }

    pub fn pick<T: Copy>(&mut self, from: &[T]) -> T {
        from[self.below(from.len())]
    }

    /// A number of 0..=most, the ends more often.
    pub fn number(&mut self, most: u16) -> u16 {
        match self.below(8) {
            0 => 0,
            1 => most,
            _ => self.below(most as usize + 1) as u16,
        }
    }

    /// Sixteen random bytes.
    pub fn bytes(&mut self) -> [u8; 16] {
        let (a, b) = (self.word(), self.word());
        (a as u128 | (b as u128) << 64).to_le_bytes()
    }
}

/// An acceptable LDR void extent.
pub fn void_extent(r: &mut Random, footprint: usize) -> SymbolicBlock {
    let mut s = SymbolicBlock { mark: 1, ..SymbolicBlock::ZERO };
    s.colours = [0; 4].map(|_: u16| r.number(65535));
    s.extents = all_ones(footprint);
    if !r.once_in(3) {
        let layout = Extents::of(is_volume(footprint));
        for axis in s.extents[..layout.count].as_chunks_mut::<2>().0 {
            let low = r.number(layout.most() - 1);
            *axis = [low, low + 1 + r.number(layout.most() - 1 - low)];
        }
    }
    s
}

/// The extents of a void extent without any: all ones, unused ones 0.
pub fn all_ones(footprint: usize) -> [u16; 6] {
    let layout = Extents::of(is_volume(footprint));
    std::array::from_fn(|i| if i < layout.count { layout.most() } else { 0 })
}

/// An acceptable HDR void extent: half floats of all sorts, infinities and NaN more often.
pub fn hdr_void_extent(r: &mut Random, footprint: usize) -> SymbolicBlock {
    let mut s = void_extent(r, footprint);
    s.hdr = 1;
    for colour in &mut s.colours {
        if r.once_in(4) {
            *colour = r.pick(&[0x7C00, 0xFC00, 0x7C01, 0x7DFF, 0x7E00, 0x7FFF, 0xFD55, 0xFFFF, 0x8000, 0x8001, 0x03FF]);
        }
    }
    s
}

/// The block modes of a footprint.
pub fn block_modes(footprint: usize) -> &'static [BlockMode; 2048] {
    &BLOCK_MODES[is_volume(footprint) as usize]
}

/// Settings of a mode block that may or may not be acceptable: grid, partitions, modes.
/// `hdr` lets HDR modes in; the HDR mark stays 0.
pub fn settings(r: &mut Random, footprint: usize, hdr: bool) -> SymbolicBlock {
    loop {
        if let BlockMode::Grid(grid) = block_modes(footprint)[r.below(2048)] {
            return settings_of(r, grid, hdr);
        }
    }
}

/// One partition with a given grid.
pub fn one_partition(grid: Grid) -> SymbolicBlock {
    let mut s = SymbolicBlock { partitions: 1, ..SymbolicBlock::ZERO };
    s.width = grid.width as u16;
    s.height = grid.height as u16;
    s.depth = grid.depth as u16;
    s.range = grid.range as u16;
    s.planes = grid.planes as u16;
    s
}

/// Settings with a given grid.
fn settings_of(r: &mut Random, grid: Grid, hdr: bool) -> SymbolicBlock {
    let mut s = one_partition(grid);
    if s.planes == 2 {
        s.plane_channel = r.below(4) as u16;
    }
    s.partitions = 1 + r.below(4) as u16;
    let mode = |r: &mut Random, low: usize, high: usize| loop {
        let mode = low + r.below(high - low + 1);
        if hdr || !is_hdr(mode as u8) {
            return mode as u16;
        }
    };
    if s.partitions == 1 {
        s.modes[0] = mode(r, 0, 15);
        return s;
    }
    s.index = r.below(1024) as u16;
    s.selector = r.below(4) as u16;
    if s.selector == 0 {
        s.modes[..s.partitions as usize].fill(mode(r, 0, 15));
    } else {
        let low = 4 * (s.selector as usize - 1);
        for i in 0..s.partitions as usize {
            s.modes[i] = mode(r, low, low + 7);
        }
    }
    s
}

/// Random endpoint numbers and weights for acceptable settings.
pub fn fill_numbers(r: &mut Random, s: &mut SymbolicBlock) {
    let endpoint_most = ENDPOINT_RANGES[s.endpoint_range()].most;
    for i in 0..s.endpoint_count() {
        s.endpoints[i] = r.number(endpoint_most);
    }
    let weight_most = WEIGHT_RANGES[s.range as usize].most;
    for i in 0..s.weight_count() {
        s.weights[i] = r.number(weight_most);
    }
}

/// An acceptable LDR mode block.
pub fn mode_block(r: &mut Random, footprint: usize) -> SymbolicBlock {
    let mut s = loop {
        let s = settings(r, footprint, false);
        if refusal(footprint, &s) == 0 {
            break s;
        }
    };
    fill_numbers(r, &mut s);
    s
}

/// An acceptable HDR mode block: some partition's mode is HDR.
pub fn hdr_mode_block(r: &mut Random, footprint: usize) -> SymbolicBlock {
    let mut s = loop {
        let s = SymbolicBlock { hdr: 1, ..settings(r, footprint, true) };
        if refusal(footprint, &s) == 0 {
            break s;
        }
    };
    fill_numbers(r, &mut s);
    s
}

/// The HDR modes.
pub const HDR_MODES: [u8; 6] = [2, 3, 7, 11, 14, 15];

/// A 4x4 grid, or 3x3x2 at volumes; one partition with this HDR mode, and endpoint numbers 0..255 that choose this submode.
pub fn block_of_submode(r: &mut Random, footprint: usize, mode: u8, wanted: usize) -> SymbolicBlock {
    let [width, height, depth] = if is_volume(footprint) { [3, 3, 2] } else { [4, 4, 1] };
    let mut s = SymbolicBlock { hdr: 1, ..one_partition(Grid { width, height, depth, range: 2, planes: 1 }) };
    s.modes[0] = mode as u16;
    loop {
        fill_numbers(r, &mut s);
        if submode(mode, &s.endpoints.map(|n| n as u8)) == wanted {
            return s;
        }
    }
}

/// A block of each HDR mode and submode.
pub fn every_submode(r: &mut Random, footprint: usize) -> Vec<SymbolicBlock> {
    let all = HDR_MODES.into_iter().flat_map(|mode| (0..submodes(mode)).map(move |sub| (mode, sub)));
    all.map(|(mode, sub)| block_of_submode(r, footprint, mode, sub)).collect()
}

/// An acceptable LDR block of this block mode, if the footprint has any.
pub fn block_of_mode(r: &mut Random, footprint: usize, mode: usize) -> Option<SymbolicBlock> {
    block_with_mode(r, footprint, mode, false)
}

/// An acceptable HDR block of this block mode, if the footprint has any.
pub fn hdr_block_of_mode(r: &mut Random, footprint: usize, mode: usize) -> Option<SymbolicBlock> {
    block_with_mode(r, footprint, mode, true)
}

fn block_with_mode(r: &mut Random, footprint: usize, mode: usize, hdr: bool) -> Option<SymbolicBlock> {
    let BlockMode::Grid(grid) = block_modes(footprint)[mode] else { return None };
    if refusal(footprint, &one_partition(grid)) != 0 {
        return None;
    }
    loop {
        let mut s = SymbolicBlock { hdr: hdr as u16, ..settings_of(r, grid, hdr) };
        if refusal(footprint, &s) == 0 {
            fill_numbers(r, &mut s);
            return Some(s);
        }
    }
}

/// An acceptable LDR symbolic block, now and then a void extent.
pub fn symbolic_block(r: &mut Random, footprint: usize) -> SymbolicBlock {
    if r.once_in(16) { void_extent(r, footprint) } else { mode_block(r, footprint) }
}

/// An acceptable HDR symbolic block, now and then a void extent.
pub fn hdr_symbolic_block(r: &mut Random, footprint: usize) -> SymbolicBlock {
    if r.once_in(16) { hdr_void_extent(r, footprint) } else { hdr_mode_block(r, footprint) }
}

/// An acceptable symbolic block, LDR or HDR.
pub fn any_symbolic_block(r: &mut Random, footprint: usize) -> SymbolicBlock {
    if r.once_in(2) { symbolic_block(r, footprint) } else { hdr_symbolic_block(r, footprint) }
}

/// A block with fault 20 in kinds 0 and 1, and for each texel 1 where its partition's mode is HDR.
pub fn fault20_block(r: &mut Random, footprint: usize) -> ([u8; 16], Vec<u8>) {
    let mut s = loop {
        let s = settings(r, footprint, true);
        if refusal(footprint, &s) == 20 {
            break s;
        }
    };
    fill_numbers(r, &mut s);
    let hdr = |place| is_hdr(s.modes[partition_at(footprint, &s, place)] as u8) as u8;
    (write_by(footprint, &s, smallest_code).to_le_bytes(), places(footprint).map(hdr).collect())
}

/// The places of a block's texels in their order: x, y, z.
pub fn places(footprint: usize) -> impl Iterator<Item = [usize; 3]> {
    let [width, height, depth] = sides(footprint);
    (0..width * height * depth).map(move |i| [i % width, i / width % height, i / width / height])
}

/// The block with another block mode in its low bits.
pub fn with_mode(block: [u8; 16], mode: usize) -> [u8; 16] {
    (u128::from_le_bytes(block) & !2047 | mode as u128).to_le_bytes()
}

/// The same block by the other of two block modes that say the same: 6x2x2 and its turns, one plane, the six low ranges (02, h).
pub fn twin(footprint: usize, block: [u8; 16]) -> Option<[u8; 16]> {
    let (modes, mode) = (block_modes(footprint), (u128::from_le_bytes(block) & 2047) as usize);
    if !is_volume(footprint) || !matches!(modes[mode], BlockMode::Grid(_)) {
        return None;
    }
    let other = (0..2048).find(|&m| m != mode && modes[m] == modes[mode])?;
    Some(with_mode(block, other))
}

/// A block that reads as the acceptable symbolic block: any fitting codes, any spare bits, either of two block modes.
pub fn loose_block(r: &mut Random, footprint: usize, s: &SymbolicBlock) -> [u8; 16] {
    let mut rng = r.clone();
    let block = write_by(footprint, s, |digit, digits| {
        let (steps, codes): (&[u32], usize) = match digit {
            Digit::Quint => (&QUINT_STEPS, 128),
            _ => (&TRIT_STEPS, 256),
        };
        let present_bits: u32 = steps[..digits.len()].iter().sum();
        let fitting: Vec<u8> = (0..codes.min(1 << present_bits))
            .filter(|&code| match digit {
                Digit::Quint => QUINTS[code].starts_with(digits),
                _ => TRITS[code].starts_with(digits),
            })
            .map(|code| code as u8)
            .collect();
        rng.pick(&fitting)
    });
    *r = rng;
    let mut block = block;
    if let Ok(Settings::Mode(m)) = parse(footprint, true, block) {
        let used = bit_count(ENDPOINT_RANGES[m.endpoint_range], m.endpoint_count as u32);
        for bit in m.endpoint_start + used..m.spare_end {
            block |= ((r.word() & 1) as u128) << bit;
        }
    }
    let block = block.to_le_bytes();
    twin(footprint, block).filter(|_| r.once_in(2)).unwrap_or(block)
}

/// The block with only its lowest spare bit set, only its highest, and all of them, where there are any.
pub fn spare_edges(footprint: usize, block: [u8; 16]) -> Vec<[u8; 16]> {
    let block = u128::from_le_bytes(block);
    let Ok(Settings::Mode(m)) = parse(footprint, true, block) else { return Vec::new() };
    let from = m.endpoint_start + bit_count(ENDPOINT_RANGES[m.endpoint_range], m.endpoint_count as u32);
    if from == m.spare_end {
        return Vec::new();
    }
    let all = ((1u128 << (m.spare_end - from)) - 1) << from;
    let clear = block & !all;
    [1 << from, 1 << (m.spare_end - 1), all].map(|bits: u128| (clear | bits).to_le_bytes()).to_vec()
}

/// A random block whose low bits give any block mode, void extents included, equally often.
pub fn block_of_any_mode(r: &mut Random) -> [u8; 16] {
    let mut bytes = r.bytes();
    let mode = r.below(2048) as u16;
    bytes[0] = mode as u8;
    bytes[1] = bytes[1] & 0xF8 | (mode >> 8) as u8;
    bytes
}

/// A void extent block that may be faulty: extents, reserved bits and HDR flag vary.
pub fn void_extent_block(r: &mut Random, footprint: usize) -> [u8; 16] {
    let mut block = u128::from_le_bytes(r.bytes());
    if !r.once_in(3) {
        block = write_by(footprint, &void_extent(r, footprint), smallest_code);
    }
    if r.once_in(3) {
        block |= 0xFFF;
    }
    block = block & !0x1FF | 0x1FC;
    if r.once_in(4) {
        block ^= 1 << (9 + r.below(3));
    }
    if r.once_in(4) {
        block ^= 1 << (12 + r.below(52));
    }
    block.to_le_bytes()
}

/// The block with some bits flipped.
pub fn flip_bits(r: &mut Random, block: [u8; 16]) -> [u8; 16] {
    let mut block = u128::from_le_bytes(block);
    for _ in 0..1 + r.below(4) {
        let bit = if r.once_in(2) { r.below(32) } else { r.below(128) };
        block ^= 1 << bit;
    }
    block.to_le_bytes()
}

/// A flat footprint, all equally often.
pub fn flat_footprint(r: &mut Random) -> usize {
    r.below(FOOTPRINTS.len())
}

/// A volume footprint, all equally often.
pub fn volume_footprint(r: &mut Random) -> usize {
    FOOTPRINTS.len() + r.below(ALL_FOOTPRINTS - FOOTPRINTS.len())
}

/// Any footprint, all equally often.
pub fn any_footprint(r: &mut Random) -> usize {
    r.below(ALL_FOOTPRINTS)
}

//! Symbolic blocks (01's sheets): a block's fields as numbers; reading, writing, their picture.

use crate::block::{Extents, Settings, endpoint_range, is_hdr, numbers_of_mode, parse};
use crate::colour::{Patterns, endpoint_pair, expand, grid_factors, grid_place};
use crate::hdr::{expanded_pair, half, hdr_channels, submode};
use crate::sequence::{Ending, bit_count, ending, pack_by, smallest_code, unpack};
use crate::tables::{Digit, ENDPOINT_RANGES, ENDPOINTS, Encoding, WEIGHT_RANGES, WEIGHTS, mode_number};
use crate::{ALL_FOOTPRINTS, Kind, is_volume, sides, texels};

/// Numbers of the flat form.
pub const NUMBERS: usize = 107;

/// Endpoint numbers and weights as stored, in stream order.
#[derive(Clone, Copy, PartialEq, Eq, Debug)]
pub struct SymbolicBlock {
    /// 1 for a void extent.
    pub mark: u16,
    pub colours: [u16; 4],
    /// Low s, high s, low t, high t, low r, high r; the last two are 0 at flat footprints.
    pub extents: [u16; 6],
    pub width: u16,
    pub height: u16,
    /// Of the weight grid: 1 at flat footprints.
    pub depth: u16,
    pub range: u16,
    pub planes: u16,
    pub plane_channel: u16,
    pub partitions: u16,
    pub index: u16,
    pub selector: u16,
    pub modes: [u16; 4],
    pub endpoints: [u16; 18],
    pub weights: [u16; 64],
    /// 1 for HDR: bit 9 of a void extent; some partition's mode of any other.
    pub hdr: u16,
}

impl SymbolicBlock {
    pub const ZERO: SymbolicBlock = SymbolicBlock {
        mark: 0,
        colours: [0; 4],
        extents: [0; 6],
        width: 0,
        height: 0,
        depth: 0,
        range: 0,
        planes: 0,
        plane_channel: 0,
        partitions: 0,
        index: 0,
        selector: 0,
        modes: [0; 4],
        endpoints: [0; 18],
        weights: [0; 64],
        hdr: 0,
    };

    /// The C calls' list: all fields in the order of their declaration, but for the depth and the third pair of extents, which stand last.
    pub fn to_numbers(&self) -> [u16; NUMBERS] {
        let mut numbers = [0; NUMBERS];
        numbers[0] = self.mark;
        numbers[1..5].copy_from_slice(&self.colours);
        numbers[5..9].copy_from_slice(&self.extents[..4]);
        numbers[9..17].copy_from_slice(&[
            self.width,
            self.height,
            self.range,
            self.planes,
            self.plane_channel,
            self.partitions,
            self.index,
            self.selector,
        ]);
        numbers[17..21].copy_from_slice(&self.modes);
        numbers[21..39].copy_from_slice(&self.endpoints);
        numbers[39..103].copy_from_slice(&self.weights);
        numbers[103] = self.hdr;
        numbers[104] = self.depth;
        numbers[105..].copy_from_slice(&self.extents[4..]);
        numbers
    }

    pub fn from_numbers(numbers: &[u16; NUMBERS]) -> SymbolicBlock {
        let mut s = SymbolicBlock::ZERO;
        s.mark = numbers[0];
        s.colours.copy_from_slice(&numbers[1..5]);
        s.extents[..4].copy_from_slice(&numbers[5..9]);
        [s.width, s.height, s.range, s.planes, s.plane_channel, s.partitions, s.index, s.selector] =
            numbers[9..17].try_into().unwrap();
        s.modes.copy_from_slice(&numbers[17..21]);
        s.endpoints.copy_from_slice(&numbers[21..39]);
        s.weights.copy_from_slice(&numbers[39..103]);
        s.hdr = numbers[103];
        s.depth = numbers[104];
        s.extents[4..].copy_from_slice(&numbers[105..]);
        s
    }

    /// Width, height and depth of the weight grid.
    pub(crate) fn grid(&self) -> [usize; 3] {
        [self.width, self.height, self.depth].map(usize::from)
    }

    /// Weights of both planes.
    pub fn weight_count(&self) -> usize {
        let [width, height, depth] = self.grid();
        width * height * depth * self.planes as usize
    }

    /// The block mode that the writer takes: the smallest with this grid, range and planes.
    pub(crate) fn block_mode(&self) -> Option<u16> {
        mode_number(self.grid(), self.range as usize, self.planes as usize)
    }

    pub fn weight_bits(&self) -> u32 {
        bit_count(WEIGHT_RANGES[self.range as usize], self.weight_count() as u32)
    }

    fn used_modes(&self) -> &[u16] {
        &self.modes[..self.partitions as usize]
    }

    /// Some partition's mode is HDR.
    pub fn some_hdr(&self) -> bool {
        self.used_modes().iter().any(|&m| is_hdr(m as u8))
    }

    pub(crate) fn endpoint_count(&self) -> usize {
        self.used_modes().iter().map(|&m| numbers_of_mode(m as u8)).sum()
    }

    pub(crate) fn extra_mode_bits(&self) -> u32 {
        if self.selector == 0 { 0 } else { 3 * self.partitions as u32 - 4 }
    }

    /// Bits left for the endpoint numbers, a count.
    pub(crate) fn endpoint_bits(&self) -> i32 {
        let room = if self.partitions == 1 { 111 } else { 99 };
        let channel_bits = if self.planes == 2 { 2 } else { 0 };
        room - self.weight_bits() as i32 - channel_bits - self.extra_mode_bits() as i32
    }

    /// Place in `ENDPOINT_RANGES`, for an acceptable symbolic block.
    pub(crate) fn endpoint_range(&self) -> usize {
        endpoint_range(self.endpoint_count(), self.endpoint_bits()).unwrap()
    }

    /// Mode and submode (`hdr::submode`) of each HDR partition, for an acceptable mode block.
    pub fn hdr_submodes(&self) -> Vec<(u8, usize)> {
        let numbers = self.endpoints.map(|v| ENDPOINTS[self.endpoint_range()][v as usize]);
        let mut first = 0;
        let mut found = Vec::new();
        for mode in self.used_modes().iter().map(|&m| m as u8) {
            if is_hdr(mode) {
                found.push((mode, submode(mode, &numbers[first..])));
            }
            first += numbers_of_mode(mode);
        }
        found
    }

    /// The largest endpoint number, for an acceptable mode block.
    pub fn endpoint_most(&self) -> u16 {
        ENDPOINT_RANGES[self.endpoint_range()].most
    }
}

/// The spare bits between endpoints and weights (02, g).
#[derive(Clone, Copy, PartialEq, Eq, Debug, Default)]
pub struct Spare {
    pub count: u16,
    /// Any of them is set.
    pub set: bool,
}

impl Spare {
    /// As numbers, in the order of the C call.
    pub fn to_numbers(self) -> [u16; 2] {
        [self.count, self.set as u16]
    }
}

impl SymbolicBlock {
    /// The count by the fields alone: 128 less the bits of all named ones. For an acceptable symbolic block; 0 of a void extent.
    pub fn spare_count(&self) -> u16 {
        if self.mark == 1 {
            return 0;
        }
        let endpoints = bit_count(ENDPOINT_RANGES[self.endpoint_range()], self.endpoint_count() as u32);
        // The endpoint mode; or index, selector and the other four mode bits.
        let modes = if self.partitions == 1 { 4 } else { 10 + 2 + 4 };
        let channel = if self.planes == 2 { 2 } else { 0 };
        (128 - (11 + 2 + modes + endpoints + channel + self.extra_mode_bits() + self.weight_bits())) as u16
    }
}

/// The symbolic block and the spare bits of a block without fault by kind 2's list, else the fault.
pub fn read_spare(footprint: usize, block: &[u8; 16]) -> Result<(SymbolicBlock, Spare), u8> {
    let s = read(footprint, block)?;
    let block = u128::from_le_bytes(*block);
    let Settings::Mode(m) = parse(footprint, true, block)? else { return Ok((s, Spare::default())) };
    let from = m.endpoint_start + bit_count(ENDPOINT_RANGES[m.endpoint_range], m.endpoint_count as u32);
    let count = s.spare_count();
    assert_eq!(from + count as u32, m.spare_end);
    Ok((s, Spare { count, set: block >> from & ((1 << count) - 1) != 0 }))
}

/// Of a mode block without fault: the encodings of endpoint numbers and weights, how many there are, and where the sequences ended.
pub fn endings(footprint: usize, block: &[u8; 16]) -> Option<[(Encoding, usize, Ending); 2]> {
    let block = u128::from_le_bytes(*block);
    let Ok(Settings::Mode(m)) = parse(footprint, true, block) else { return None };
    let endpoints = ENDPOINT_RANGES[m.endpoint_range];
    let weights = WEIGHT_RANGES[m.grid.range as usize];
    Some([
        (endpoints, m.endpoint_count, ending(endpoints, m.endpoint_count, block >> m.endpoint_start)),
        (weights, m.weight_count, ending(weights, m.weight_count, block.reverse_bits())),
    ])
}

/// The symbolic block of a block without fault by kind 2's list, else the fault.
pub fn read(footprint: usize, block: &[u8; 16]) -> Result<SymbolicBlock, u8> {
    let block = u128::from_le_bytes(*block);
    let mut s = SymbolicBlock::ZERO;
    match parse(footprint, true, block)? {
        Settings::VoidExtent { hdr, colours, extents } => {
            s.mark = 1;
            s.hdr = hdr as u16;
            s.colours = colours;
            s.extents = extents;
        }
        Settings::Mode(m) => {
            s.width = m.grid.width as u16;
            s.height = m.grid.height as u16;
            s.depth = m.grid.depth as u16;
            s.range = m.grid.range as u16;
            s.planes = m.grid.planes as u16;
            s.plane_channel = m.plane_channel as u16;
            s.partitions = m.partitions as u16;
            s.index = m.index;
            s.selector = m.selector;
            s.modes = m.modes.map(u16::from);
            s.hdr = s.some_hdr() as u16;
            let endpoints = ENDPOINT_RANGES[m.endpoint_range];
            unpack(endpoints, m.endpoint_count, block >> m.endpoint_start, |i, v| s.endpoints[i] = v);
            let weights = WEIGHT_RANGES[m.grid.range as usize];
            unpack(weights, m.weight_count, block.reverse_bits(), |i, v| s.weights[i] = v);
        }
    }
    Ok(s)
}

/// The first refusal of a symbolic block at a footprint, 0 where it is acceptable.
pub fn refusal(footprint: usize, s: &SymbolicBlock) -> u8 {
    if footprint >= ALL_FOOTPRINTS {
        return 1;
    }
    match s.mark {
        0 => mode_refusal(footprint, s),
        1 => void_extent_refusal(footprint, s),
        _ => 31,
    }
}

fn void_extent_refusal(footprint: usize, s: &SymbolicBlock) -> u8 {
    let used = SymbolicBlock { mark: 1, colours: s.colours, extents: s.extents, hdr: s.hdr, ..SymbolicBlock::ZERO };
    let layout = Extents::of(is_volume(footprint));
    if *s != used || s.hdr > 1 || above(&s.extents, layout.count, layout.most()) {
        return 31;
    }
    if layout.are_bad(s.extents) { 12 } else { 0 }
}

/// One of the numbers is above this, or one past the used ones is not 0.
fn above(numbers: &[u16], used: usize, most: u16) -> bool {
    numbers.iter().enumerate().any(|(i, &v)| v > if i < used { most } else { 0 })
}

/// Refusal 31 of a mode block: a field outside its limits, or an unused one not 0.
fn outside_limits(footprint: usize, s: &SymbolicBlock) -> bool {
    if s.hdr > 1 || s.colours != [0; 4] || s.extents != [0; 6] {
        return true;
    }
    if !(if is_volume(footprint) { 2..=6 } else { 1..=1 }).contains(&s.depth) {
        return true;
    }
    if !(2..=12).contains(&s.width) || !(2..=12).contains(&s.height) || s.range > 11 {
        return true;
    }
    if !(1..=2).contains(&s.planes) || s.plane_channel > 3 || (s.planes == 1 && s.plane_channel != 0) {
        return true;
    }
    if !(1..=4).contains(&s.partitions) || s.index > 1023 || s.selector > 3 {
        return true;
    }
    if s.partitions == 1 && (s.index != 0 || s.selector != 0) {
        return true;
    }
    above(&s.modes, s.partitions as usize, 15)
}

fn mode_refusal(footprint: usize, s: &SymbolicBlock) -> u8 {
    if outside_limits(footprint, s) {
        return 31;
    }
    if s.block_mode().is_none() {
        return 32;
    }
    let [width, height, depth] = sides(footprint);
    if s.width as usize > width || s.height as usize > height || s.depth as usize > depth {
        return 14;
    }
    if s.weight_count() > 64 {
        return 15;
    }
    if s.weight_bits() < 24 || s.weight_bits() > 96 {
        return 16;
    }
    if s.planes == 2 && s.partitions == 4 {
        return 17;
    }
    let modes = s.used_modes();
    if s.partitions > 1 {
        let unfit = match s.selector {
            0 => modes.iter().any(|&m| m != modes[0]),
            k => modes.iter().any(|&m| m / 4 != k - 1 && m / 4 != k),
        };
        if unfit {
            return 33;
        }
    }
    let count = s.endpoint_count();
    if count > 18 {
        return 18;
    }
    if s.endpoint_bits() < (13 * count as i32 + 4) / 5 {
        return 19;
    }
    if s.hdr == 0 && s.some_hdr() {
        return 20;
    }
    let endpoint_most = ENDPOINT_RANGES[s.endpoint_range()].most;
    let weight_most = WEIGHT_RANGES[s.range as usize].most;
    if above(&s.endpoints, count, endpoint_most) || above(&s.weights, s.weight_count(), weight_most) {
        return 34;
    }
    if s.hdr == 1 && !s.some_hdr() { 35 } else { 0 }
}

/// The block of a symbolic block: smallest codes, spare bits 0; else the first refusal.
pub fn write(footprint: usize, s: &SymbolicBlock) -> Result<[u8; 16], u8> {
    match refusal(footprint, s) {
        0 => Ok(write_by(footprint, s, smallest_code).to_le_bytes()),
        number => Err(number),
    }
}

/// The block of an acceptable symbolic block; `code` picks the code of a group's present digits.
pub(crate) fn write_by(footprint: usize, s: &SymbolicBlock, mut code: impl FnMut(Digit, &[u8]) -> u8) -> u128 {
    if s.mark == 1 {
        // Bits 11 and 10 are 1, where a volume's first extent begins.
        let head = if is_volume(footprint) { 0b01_1111_1100u128 } else { 0b1101_1111_1100 };
        let mut block = head | (s.hdr as u128) << 9;
        let layout = Extents::of(is_volume(footprint));
        for (i, &extent) in s.extents[..layout.count].iter().enumerate() {
            block |= (extent as u128) << (layout.start + layout.bits * i as u32);
        }
        for (i, &colour) in s.colours.iter().enumerate() {
            block |= (colour as u128) << (64 + 16 * i);
        }
        return block;
    }
    let mut block = s.block_mode().unwrap() as u128 | ((s.partitions - 1) as u128) << 11;

    let weights = &s.weights[..s.weight_count()];
    block |= pack_by(WEIGHT_RANGES[s.range as usize], weights, &mut code).reverse_bits();
    let mut below = 128 - s.weight_bits();

    let endpoint_start;
    if s.partitions == 1 {
        block |= (s.modes[0] as u128) << 13;
        endpoint_start = 17;
    } else {
        block |= (s.index as u128) << 13 | (s.selector as u128) << 23;
        endpoint_start = 29;
        if s.selector == 0 {
            block |= (s.modes[0] as u128) << 25;
        } else {
            let mut field = 0u128;
            for (i, &mode) in s.used_modes().iter().enumerate() {
                field |= (mode / 4 - (s.selector - 1)) as u128 * (1 << i);
                field |= ((mode % 4) as u128) << (s.partitions as usize + 2 * i);
            }
            below -= s.extra_mode_bits();
            block |= (field & 15) << 25 | (field >> 4) << below;
        }
    }
    if s.planes == 2 {
        below -= 2;
        block |= (s.plane_channel as u128) << below;
    }
    let endpoints = &s.endpoints[..s.endpoint_count()];
    block | pack_by(ENDPOINT_RANGES[s.endpoint_range()], endpoints, &mut code) << endpoint_start
}

/// The texel at x, y, z of an acceptable symbolic block, from its numbers alone. An HDR one has no picture in kinds 0 and 1.
pub fn picture(footprint: usize, kind: Kind, s: &SymbolicBlock, place: [usize; 3]) -> [u16; 4] {
    assert!(s.hdr == 0 || kind.takes_hdr());
    if s.mark == 1 {
        return match kind {
            Kind::Unorm16 => s.colours,
            Kind::Srgb8 => s.colours.map(|c| c >> 8),
            Kind::Float16 if s.hdr == 1 => s.colours,
            Kind::Float16 => s.colours.map(|c| half(false, c)),
        };
    }
    let partition = partition_at(footprint, s, place);
    let pair = pair_of(s, kind, partition);
    let hdr = hdr_channels(s.modes[partition] as u8);
    let planes: Vec<u32> = (0..s.planes as usize).map(|p| weight_at(footprint, s, p, place)).collect();
    let mut texel = [0; 4];
    for channel in 0..4 {
        let second = s.planes == 2 && s.plane_channel as usize == channel;
        let i = planes[second as usize];
        let [c0, c1] = [0, 1].map(|e| pair[e][channel]);
        let c = (c0 * (64 - i) + c1 * i + 32) / 64;
        texel[channel] = match kind {
            Kind::Unorm16 => c as u16,
            Kind::Srgb8 => (c / 256) as u16,
            Kind::Float16 => half(hdr[channel], c as u16),
        };
    }
    texel
}

/// The partition of a place.
pub(crate) fn partition_at(footprint: usize, s: &SymbolicBlock, [x, y, z]: [usize; 3]) -> usize {
    if s.partitions == 1 {
        return 0;
    }
    Patterns::new(s.index, s.partitions as usize, texels(footprint) < 31).layer(z).partition(x, y)
}

/// Endpoint pair of a partition, expanded for the kind: its numbers follow those of the partitions before it.
fn pair_of(s: &SymbolicBlock, kind: Kind, partition: usize) -> [[u32; 4]; 2] {
    let count = |p: usize| numbers_of_mode(s.modes[p] as u8);
    let first: usize = (0..partition).map(count).sum();
    let range = s.endpoint_range();
    let numbers: Vec<u8> =
        s.endpoints[first..first + count(partition)].iter().map(|&v| ENDPOINTS[range][v as usize]).collect();
    let mode = s.modes[partition] as u8;
    match kind {
        Kind::Float16 => expanded_pair(mode, &numbers).map(|end| end.map(|c| c as u32)),
        _ => endpoint_pair(mode, &numbers).map(|end| end.map(|c| expand(kind, c))),
    }
}

/// Weight of a plane at a place. A neighbour outside the grid counts 0 and isn't read.
fn weight_at(footprint: usize, s: &SymbolicBlock, plane: usize, place: [usize; 3]) -> u32 {
    let grid = s.grid();
    let weight = |point: [usize; 3]| {
        if point.iter().zip(grid).any(|(&p, side)| p >= side) {
            return 0;
        }
        let number = ((point[2] * grid[1] + point[1]) * grid[0] + point[0]) * s.planes as usize + plane;
        WEIGHTS[s.range as usize][s.weights[number] as usize] as u32
    };
    let block = sides(footprint);
    let axis = |a: usize| grid_place(block[a], grid[a], place[a]);
    let ((js, fs), (jt, ft)) = (axis(0), axis(1));
    if !is_volume(footprint) {
        let [w00, w01, w10, w11] = grid_factors(fs, ft);
        let weight = |column: usize, row: usize| weight([column, row, 0]);
        let sum =
            weight(js, jt) * w00 + weight(js + 1, jt) * w01 + weight(js, jt + 1) * w10 + weight(js + 1, jt + 1) * w11;
        return (sum + 8) >> 4;
    }
    let (jr, fr) = axis(2);
    let simplex = simplex(fs, ft, fr);
    let mut point = [js, jt, jr];
    let mut sum = weight(point) * simplex.factors[0];
    for (step, factor) in simplex.steps.into_iter().zip(&simplex.factors[1..]) {
        point[step] += 1;
        sum += weight(point) * factor;
    }
    (sum + 8) >> 4
}

/// 000, "ASTC simplex interpolation parameters": the axes of s1, of s2 and of the last step, which goes to the point across, and the factors.
pub(crate) struct SimplexRow {
    pub steps: [usize; 3],
    pub factors: [u32; 4],
}

pub(crate) fn simplex(fs: u32, ft: u32, fr: u32) -> SimplexRow {
    const S: usize = 0;
    const T: usize = 1;
    const R: usize = 2;
    let (steps, factors) = match (fs > ft, ft > fr, fs > fr) {
        (true, true, _) => ([S, T, R], [16 - fs, fs - ft, ft - fr, fr]),
        (false, _, true) => ([T, S, R], [16 - ft, ft - fs, fs - fr, fr]),
        (_, false, true) => ([S, R, T], [16 - fs, fs - fr, fr - ft, ft]),
        (true, _, false) => ([R, S, T], [16 - fr, fr - fs, fs - ft, ft]),
        (_, true, false) => ([T, R, S], [16 - ft, ft - fr, fr - fs, fs]),
        (false, false, _) => ([R, T, S], [16 - fr, fr - ft, ft - fs, fs]),
    };
    SimplexRow { steps, factors }
}

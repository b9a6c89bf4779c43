//! The decoder: a block's settings are read once, then its texels written row by row.

use crate::block::{ModeSettings, Settings, numbers_of_mode, parse_as};
use crate::colour::{Pattern, Patterns, endpoint_pair, expand, grid_factors, grid_place};
use crate::hdr::{expanded_pair, half, hdr_channels};
use crate::sequence::unpack;
use crate::tables::{ENDPOINT_RANGES, ENDPOINTS, WEIGHT_RANGES, WEIGHTS};
use crate::{Kind, Tally, is_volume, sides, sides_as};

/// How a kind shows its numbers.
pub(crate) trait Show {
    type Number: Copy;
    const KIND: Kind;
    const ERROR: [Self::Number; 4];
    /// From the interpolation's sum, before its division by 64; `hdr` where the channel is HDR.
    fn from_sum(hdr: bool, sum: i32) -> Self::Number;
    /// A void extent's colour.
    fn from_solid(hdr: bool, c: u16) -> Self::Number;
}

pub(crate) struct Unorm16;

impl Show for Unorm16 {
    type Number = u16;
    const KIND: Kind = Kind::Unorm16;
    const ERROR: [u16; 4] = [65535, 0, 65535, 65535];
    #[inline(always)]
    fn from_sum(_: bool, sum: i32) -> u16 {
        (sum >> 6) as u16
    }
    fn from_solid(_: bool, c: u16) -> u16 {
        c
    }
}

pub(crate) struct Srgb8;

impl Show for Srgb8 {
    type Number = u8;
    const KIND: Kind = Kind::Srgb8;
    const ERROR: [u8; 4] = [255, 0, 255, 255];
    #[inline(always)]
    fn from_sum(_: bool, sum: i32) -> u8 {
        (sum >> 14) as u8
    }
    fn from_solid(_: bool, c: u16) -> u8 {
        (c >> 8) as u8
    }
}

pub(crate) struct Float16;

impl Show for Float16 {
    type Number = u16;
    const KIND: Kind = Kind::Float16;
    const ERROR: [u16; 4] = [65535; 4];
    #[inline(always)]
    fn from_sum(hdr: bool, sum: i32) -> u16 {
        half(hdr, (sum >> 6) as u16)
    }
    /// HDR colours as they are stored.
    fn from_solid(hdr: bool, c: u16) -> u16 {
        if hdr { c } else { half(false, c) }
    }
}

/// Where a block's texels go: its first texel is out[0], rows lie `stride` numbers apart and layers `layer` numbers; columns, rows and layers past
/// `columns`, `rows` and `layers` are dropped.
struct Target<'a, K: Show> {
    out: &'a mut [K::Number],
    stride: usize,
    columns: usize,
    rows: usize,
    layer: usize,
    layers: usize,
}

impl<K: Show> Target<'_, K> {
    /// Each layer by itself; a flat block is one.
    #[inline(always)]
    fn each_layer<const VOLUME: bool>(self, mut paint: impl FnMut(usize, Target<K>)) {
        if !VOLUME {
            return paint(0, self);
        }
        for (z, out) in self.out.chunks_mut(self.layer).take(self.layers).enumerate() {
            paint(z, Target { out, ..self });
        }
    }

    /// The rows of a layer, as texels.
    #[inline(always)]
    fn rows(&mut self) -> impl Iterator<Item = &mut [[K::Number; 4]]> {
        let columns = self.columns;
        self.out.chunks_mut(self.stride).take(self.rows).map(move |row| row[..4 * columns].as_chunks_mut().0)
    }

    fn fill<const VOLUME: bool>(self, texel: [K::Number; 4]) {
        self.each_layer::<VOLUME>(|_, mut layer| {
            for row in layer.rows() {
                row.fill(texel);
            }
        });
    }
}

fn decode_to<K: Show, const VOLUME: bool>(footprint: usize, block: &[u8; 16], target: Target<K>) -> u8 {
    let block = u128::from_le_bytes(*block);
    match parse_as::<VOLUME>(footprint, K::KIND.takes_hdr(), block) {
        Err(fault) => {
            target.fill::<VOLUME>(K::ERROR);
            fault
        }
        Ok(Settings::VoidExtent { hdr, colours, .. }) => {
            target.fill::<VOLUME>(colours.map(|c| K::from_solid(hdr, c)));
            0
        }
        Ok(Settings::Mode(m)) => {
            decode_mode::<K, VOLUME>(footprint, block, &m, target);
            0
        }
    }
}

/// A partition's pair: 64 c0 + 32 and c1 - c0 of the expanded endpoints.
#[derive(Clone, Copy)]
struct Line {
    start: [i32; 4],
    step: [i32; 4],
}

/// The pair of a mode, expanded to 16 bits for the kind.
pub(crate) fn pair<K: Show>(mode: u8, numbers: &[u8]) -> [[i32; 4]; 2] {
    match K::KIND {
        Kind::Float16 => expanded_pair(mode, numbers),
        kind => endpoint_pair(mode, numbers).map(|end| end.map(|c| expand(kind, c) as i32)),
    }
}

fn lines<K: Show>(block: u128, m: &ModeSettings) -> [Line; 4] {
    let mut numbers = [0; 18];
    let table = &ENDPOINTS[m.endpoint_range];
    let stream = block >> m.endpoint_start;
    unpack(ENDPOINT_RANGES[m.endpoint_range], m.endpoint_count, stream, |i, v| numbers[i] = table[v as usize & 255]);
    let mut lines = [Line { start: [0; 4], step: [0; 4] }; 4];
    let mut first = 0;
    for (line, &mode) in lines.iter_mut().zip(&m.modes[..m.partitions]) {
        let pair = pair::<K>(mode, &numbers[first..]);
        first += numbers_of_mode(mode);
        for channel in 0..4 {
            let [c0, c1] = [0, 1].map(|e| pair[e][channel]);
            line.start[channel] = 64 * c0 + 32;
            line.step[channel] = c1 - c0;
        }
    }
    lines
}

/// Room for 64 weights and one layer, row and place past the grid; as many as seven bits tell.
type Plane = [u8; 128];

fn planes(block: u128, m: &ModeSettings) -> [Plane; 2] {
    let mut planes = [[0; 128]; 2];
    let table = &WEIGHTS[m.grid.range as usize];
    let range = WEIGHT_RANGES[m.grid.range as usize];
    let stream = block.reverse_bits();
    if m.grid.planes == 1 {
        unpack(range, m.weight_count, stream, |i, v| planes[0][i] = table[v as usize & 31]);
    } else {
        unpack(range, m.weight_count, stream, |i, v| planes[i % 2][i / 2] = table[v as usize & 31]);
    }
    planes
}

#[inline(always)]
fn infill(plane: &Plane, at: usize, grid_width: usize, factors: [u32; 4]) -> i32 {
    let sum = plane[at] as u32 * factors[0]
        + plane[at + 1] as u32 * factors[1]
        + plane[at + grid_width] as u32 * factors[2]
        + plane[at + grid_width + 1] as u32 * factors[3];
    ((sum + 8) >> 4) as i32
}

/// Simplex infill: from a point a step on each axis, along the largest fraction first. The order of equal ones doesn't matter, for the point between
/// them has factor 0.
struct Simplex {
    points: [usize; 4],
    factors: [u32; 4],
}

impl Simplex {
    #[inline(always)]
    fn new(at: usize, steps: [usize; 3], fractions: [u32; 3]) -> Simplex {
        // Each axis as one number, its fraction above, its step (at most 36) below, and the three sorted.
        let [s, t, r] = std::array::from_fn(|a| fractions[a] << 8 | steps[a] as u32);
        let (more, less) = (t.max(r), t.min(r));
        let sorted = [s.max(more), s.min(more).max(less), s.min(less)];
        let [f0, f1, f2] = sorted.map(|axis| axis >> 8);
        let mut points = [at; 4];
        for k in 0..3 {
            points[k + 1] = points[k] + (sorted[k] & 255) as usize;
        }
        Simplex { points, factors: [16 - f0, f0 - f1, f1 - f2, f2] }
    }

    #[inline(always)]
    fn infill(&self, plane: &Plane) -> i32 {
        let part = |k: usize| plane[self.points[k] & 127] as u32 * self.factors[k];
        ((part(0) + part(1) + part(2) + part(3) + 8) >> 4) as i32
    }
}

/// The partition at x, y: the first of the largest, without branches.
#[inline(always)]
pub(crate) fn first_largest(pattern: &Pattern, x: u32, y: u32) -> usize {
    let part = |k: usize| (pattern.x[k] * x + pattern.y[k] * y).wrapping_add(pattern.add[k]) & 0x3F;
    // The part above, 3 - k below: the largest of these tells the partition.
    let key = |k: usize| part(k) << 2 | (3 - k as u32);
    3 - (key(0).max(key(1)).max(key(2).max(key(3))) & 3) as usize
}

fn decode_mode<K: Show, const VOLUME: bool>(footprint: usize, block: u128, m: &ModeSettings, target: Target<K>) {
    let [width, height, depth] = sides_as::<VOLUME>(footprint);
    let lines = lines::<K>(block, m);
    let hdr = m.modes.map(hdr_channels);
    let planes = planes(block, m);
    let [grid_width, grid_height, grid_depth] = [m.grid.width, m.grid.height, m.grid.depth].map(usize::from);
    let steps = [1, grid_width, grid_width * grid_height];
    let mut columns = [(0, 0); 12];
    for (x, column) in columns[..width].iter_mut().enumerate() {
        *column = grid_place(width, grid_width, x);
    }
    let patterns = (m.partitions > 1).then(|| Patterns::new(m.index, m.partitions, width * height * depth < 31));
    let dual_plane = m.grid.planes == 2;
    target.each_layer::<VOLUME>(|z, mut layer| {
        let (jr, fr) = if VOLUME { grid_place(depth, grid_depth, z) } else { (0, 0) };
        let pattern = patterns.map(|patterns| if VOLUME { patterns.layer(z) } else { patterns.first });
        for (y, texels) in layer.rows().enumerate() {
            let (jt, ft) = grid_place(height, grid_height, y);
            for ((x, out), &(js, fs)) in texels.iter_mut().enumerate().zip(&columns) {
                let at = jr * steps[2] + jt * grid_width + js;
                let (factors, simplex) = (grid_factors(fs, ft), Simplex::new(at, steps, [fs, ft, fr]));
                let weight = |plane: &Plane| {
                    if VOLUME { simplex.infill(plane) } else { infill(plane, at, grid_width, factors) }
                };
                let mut weights = [weight(&planes[0]); 4];
                if dual_plane {
                    weights[m.plane_channel] = weight(&planes[1]);
                }
                let partition = match &pattern {
                    None => 0,
                    Some(pattern) => first_largest(pattern, x as u32, y as u32),
                };
                let (line, hdr) = (&lines[partition], &hdr[partition]);
                *out = std::array::from_fn(|c| K::from_sum(hdr[c], line.start[c] + line.step[c] * weights[c]));
            }
        }
    });
}

/// A block is a picture of its own.
fn decode_block<K: Show>(footprint: usize, block: &[u8; 16], out: &mut [K::Number]) -> u8 {
    decode_volume::<K>(footprint, sides(footprint), block, out).first_fault
}

/// All texels of a block in kind 0; answers the fault.
pub fn decode_u16(footprint: usize, block: &[u8; 16], out: &mut [u16]) -> u8 {
    decode_block::<Unorm16>(footprint, block, out)
}

/// All texels of a block in kind 1; answers the fault.
pub fn decode_u8(footprint: usize, block: &[u8; 16], out: &mut [u8]) -> u8 {
    decode_block::<Srgb8>(footprint, block, out)
}

/// All texels of a block in kind 2; answers the fault.
pub fn decode_f16(footprint: usize, block: &[u8; 16], out: &mut [u16]) -> u8 {
    decode_block::<Float16>(footprint, block, out)
}

/// All texels of a block in any kind; answers the fault.
pub fn decode(footprint: usize, kind: Kind, block: &[u8; 16], out: &mut [u16]) -> u8 {
    match kind {
        Kind::Unorm16 => decode_u16(footprint, block, out),
        Kind::Float16 => decode_f16(footprint, block, out),
        Kind::Srgb8 => {
            let mut bytes = [0; 4 * 216];
            let bytes = &mut bytes[..out.len()];
            let fault = decode_u8(footprint, block, bytes);
            for (wide, byte) in out.iter_mut().zip(bytes) {
                *wide = *byte as u16;
            }
            fault
        }
    }
}

fn decode_picture<K: Show, const VOLUME: bool>(
    footprint: usize, [width, height, depth]: [usize; 3], blocks: &[u8], out: &mut [K::Number],
) -> Tally {
    let [w, h, d] = sides_as::<VOLUME>(footprint);
    let (across, down) = (width.div_ceil(w), height.div_ceil(h));
    assert_eq!(blocks.len(), 16 * across * down * depth.div_ceil(d));
    assert_eq!(out.len(), 4 * width * height * depth);
    let (stride, layer) = (4 * width, 4 * width * height);
    let mut tally = Tally::default();
    for (row, in_row) in blocks.as_chunks::<16>().0.chunks(across).enumerate() {
        let (y, z) = (row % down * h, row / down * d);
        for (column, block) in in_row.iter().enumerate() {
            let x = column * w;
            let target = Target {
                out: &mut out[z * layer + y * stride + 4 * x..],
                stride,
                layer,
                columns: w.min(width - x),
                rows: h.min(height - y),
                layers: d.min(depth - z),
            };
            let fault = decode_to::<K, VOLUME>(footprint, block, target);
            if fault != 0 {
                if tally.faulty == 0 {
                    tally.first_index = (row * across + column) as u64;
                    tally.first_fault = fault;
                }
                tally.faulty += 1;
            }
        }
    }
    tally
}

/// Width, height and depth in texels; an image is a volume of one layer.
fn decode_volume<K: Show>(footprint: usize, size: [usize; 3], blocks: &[u8], out: &mut [K::Number]) -> Tally {
    if is_volume(footprint) {
        decode_picture::<K, true>(footprint, size, blocks, out)
    } else {
        decode_picture::<K, false>(footprint, size, blocks, out)
    }
}

/// An image in kind 0; blocks in raster order, edge blocks cropped.
pub fn decode_image_u16(footprint: usize, width: usize, height: usize, blocks: &[u8], out: &mut [u16]) -> Tally {
    decode_volume::<Unorm16>(footprint, [width, height, 1], blocks, out)
}

/// An image in kind 1; blocks in raster order, edge blocks cropped.
pub fn decode_image_u8(footprint: usize, width: usize, height: usize, blocks: &[u8], out: &mut [u8]) -> Tally {
    decode_volume::<Srgb8>(footprint, [width, height, 1], blocks, out)
}

/// An image in kind 2; blocks in raster order, edge blocks cropped.
pub fn decode_image_f16(footprint: usize, width: usize, height: usize, blocks: &[u8], out: &mut [u16]) -> Tally {
    decode_volume::<Float16>(footprint, [width, height, 1], blocks, out)
}

/// A volume in kind 0: width, height and depth; texels and blocks x fastest, then y, then z, edge blocks cropped. Blocks of a flat footprint are one
/// layer thick.
pub fn decode_volume_u16(footprint: usize, size: [usize; 3], blocks: &[u8], out: &mut [u16]) -> Tally {
    decode_volume::<Unorm16>(footprint, size, blocks, out)
}

/// A volume in kind 1.
pub fn decode_volume_u8(footprint: usize, size: [usize; 3], blocks: &[u8], out: &mut [u8]) -> Tally {
    decode_volume::<Srgb8>(footprint, size, blocks, out)
}

/// A volume in kind 2.
pub fn decode_volume_f16(footprint: usize, size: [usize; 3], blocks: &[u8], out: &mut [u16]) -> Tally {
    decode_volume::<Float16>(footprint, size, blocks, out)
}

#[cfg(test)]
mod tests {
    use super::*;
    use crate::symbolic::simplex;

    /// The walk along the sorted fractions is 000's table, at all of them.
    #[test]
    fn simplex_by_the_table() {
        let steps = [1, 5, 20];
        let plane: Plane = std::array::from_fn(|i| (i * i * 37 % 65) as u8);
        for fractions in (0..4096).map(|n| [n & 15, n >> 4 & 15, n >> 8]) {
            let [fs, ft, fr] = fractions;
            let row = simplex(fs, ft, fr);
            let mut at = 30;
            let mut sum = 8 + plane[at] as u32 * row.factors[0];
            for (step, factor) in row.steps.into_iter().zip(&row.factors[1..]) {
                at += steps[step];
                sum += plane[at] as u32 * factor;
            }
            assert_eq!(Simplex::new(30, steps, fractions).infill(&plane), (sum >> 4) as i32, "{fractions:?}");
        }
    }
}

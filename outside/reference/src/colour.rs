//! From numbers to texels: colour endpoint modes, partition pattern, weight infill, interpolation.

use crate::Kind;

pub type Pair = [[u8; 4]; 2];

/// 003, bit_transfer_signed: offset and base.
fn transfer(a: u8, b: u8) -> (i32, i32) {
    let base = (b >> 1 | a & 0x80) as i32;
    let offset = (a >> 1 & 0x3F) as i32;
    (if offset & 0x20 != 0 { offset - 0x40 } else { offset }, base)
}

fn blue_contract(c: [i32; 4]) -> [i32; 4] {
    [(c[0] + c[2]) >> 1, (c[1] + c[2]) >> 1, c[2], c[3]]
}

fn clamp(c: [i32; 4]) -> [u8; 4] {
    c.map(|v| v.clamp(0, 255) as u8)
}

/// Modes 8 and 12: two colours told directly.
fn direct(v: &[u8], alpha: [u8; 2]) -> Pair {
    let sum = |i: usize| v[i] as i32 + v[i + 2] as i32 + v[i + 4] as i32;
    let first = [v[0], v[2], v[4], alpha[0]];
    let second = [v[1], v[3], v[5], alpha[1]];
    if sum(1) >= sum(0) { [first, second] } else { [second, first].map(|c| clamp(blue_contract(c.map(i32::from)))) }
}

/// Modes 9 and 13: a base and an offset for each of three colours; alpha as base and offset too.
fn base_offset(v: &[u8], alpha: (i32, i32)) -> Pair {
    let (r, g, b) = (transfer(v[1], v[0]), transfer(v[3], v[2]), transfer(v[5], v[4]));
    let base = [r.1, g.1, b.1, alpha.1];
    let sum = [r.0 + r.1, g.0 + g.1, b.0 + b.1, alpha.0 + alpha.1];
    if r.0 + g.0 + b.0 >= 0 {
        [clamp(base), clamp(sum)]
    } else {
        [clamp(blue_contract(sum)), clamp(blue_contract(base))]
    }
}

/// 003, "LDR Endpoint Decoding": the pair that a mode makes of its unquantised numbers.
/// An HDR mode makes none here; `hdr` has its.
pub fn endpoint_pair(mode: u8, v: &[u8]) -> Pair {
    let scaled = |i: usize| ((v[i] as u32 * v[3] as u32) >> 8) as u8;
    match mode {
        0 => [[v[0], v[0], v[0], 255], [v[1], v[1], v[1], 255]],
        1 => {
            let l0 = v[0] >> 2 | v[1] & 0xC0;
            let l1 = l0.saturating_add(v[1] & 0x3F);
            [[l0, l0, l0, 255], [l1, l1, l1, 255]]
        }
        4 => [[v[0], v[0], v[0], v[2]], [v[1], v[1], v[1], v[3]]],
        5 => {
            let (l, a) = (transfer(v[1], v[0]), transfer(v[3], v[2]));
            let sum = l.0 + l.1;
            [clamp([l.1, l.1, l.1, a.1]), clamp([sum, sum, sum, a.0 + a.1])]
        }
        6 => [[scaled(0), scaled(1), scaled(2), 255], [v[0], v[1], v[2], 255]],
        8 => direct(v, [255, 255]),
        9 => base_offset(v, (0, 255)),
        10 => [[scaled(0), scaled(1), scaled(2), v[4]], [v[0], v[1], v[2], v[5]]],
        12 => direct(v, [v[6], v[7]]),
        13 => base_offset(v, transfer(v[7], v[6])),
        _ => [[0; 4]; 2],
    }
}

fn hash52(mut p: u32) -> u32 {
    p ^= p >> 15;
    p = p.wrapping_sub(p << 17);
    p = p.wrapping_add(p << 7);
    p = p.wrapping_add(p << 4);
    p ^= p >> 5;
    p = p.wrapping_add(p << 16);
    p ^= p >> 7;
    p ^= p >> 3;
    p ^= p << 6;
    p ^= p >> 17;
    p
}

/// 000, "Partition Pattern Generation", all but the place in a layer: for a, b, c, d the factors of x and y
/// and the summand, 0 for those that the count leaves out.
#[derive(Clone, Copy)]
pub struct Pattern {
    pub x: [u32; 4],
    pub y: [u32; 4],
    pub add: [u32; 4],
}

impl Pattern {
    /// Of flat footprints. `small` doubles the place: footprints under 31 texels.
    pub fn new(index: u16, count: usize, small: bool) -> Pattern {
        Patterns::new(index, count, small).first
    }

    #[inline]
    pub fn partition(&self, x: usize, y: usize) -> usize {
        let part = |k: usize| (self.x[k] * x as u32 + self.y[k] * y as u32).wrapping_add(self.add[k]) & 0x3F;
        let (a, b, c, d) = (part(0), part(1), part(2), part(3));
        if a >= b && a >= c && a >= d {
            0
        } else if b >= c && b >= d {
            1
        } else if c >= d {
            2
        } else {
            3
        }
    }
}

/// The pattern of layer 0, and the factors of z.
#[derive(Clone, Copy)]
pub struct Patterns {
    pub first: Pattern,
    z: [u32; 4],
}

impl Patterns {
    /// `small` doubles the place: footprints under 31 texels.
    #[inline(always)]
    pub fn new(index: u16, count: usize, small: bool) -> Patterns {
        let seed = index as u32 + (count as u32 - 1) * 1024;
        let rnum = hash52(seed);
        let wide = if count == 3 { 6 } else { 5 };
        let narrow = if seed & 2 != 0 { 4 } else { 5 };
        let (sh1, sh2) = if seed & 1 != 0 { (narrow, wide) } else { (wide, narrow) };
        let sh3 = if seed & 0x10 != 0 { sh1 } else { sh2 };
        let squared = |s: u32, sh: u32| ((s * s) >> sh) << small as u32;
        let factor = |shift: u32, sh: u32| squared(rnum >> shift & 0xF, sh);
        let mut first = Pattern {
            x: [factor(0, sh1), factor(8, sh1), factor(16, sh1), factor(24, sh1)],
            y: [factor(4, sh2), factor(12, sh2), factor(20, sh2), factor(28, sh2)],
            add: [rnum >> 14, rnum >> 10, rnum >> 6, rnum >> 2],
        };
        // Seeds 11, 12, 9 and 10.
        let seed12 = rnum.rotate_left(2) & 0xF;
        let mut z = [factor(26, sh3), squared(seed12, sh3), factor(18, sh3), factor(22, sh3)];
        for k in count.max(2)..4 {
            (first.x[k], first.y[k], first.add[k], z[k]) = (0, 0, 0, 0);
        }
        Patterns { first, z }
    }

    /// The pattern of layer z.
    #[inline]
    pub fn layer(&self, z: usize) -> Pattern {
        let add = std::array::from_fn(|k| self.first.add[k].wrapping_add(self.z[k] * z as u32));
        Pattern { add, ..self.first }
    }
}

/// 003, "Weight Infill", one axis: grid coordinate (column or row) and fraction of 16.
#[inline]
pub fn grid_place(side: usize, grid: usize, at: usize) -> (usize, u32) {
    let scale = (1024 + side / 2) / (side - 1);
    let g = (scale * at * (grid - 1) + 32) >> 6;
    (g >> 4, g as u32 & 15)
}

/// 003, "Weight Infill": factors of the four neighbours, here right below below-right.
#[inline]
pub fn grid_factors(fs: u32, ft: u32) -> [u32; 4] {
    let w11 = (fs * ft + 8) >> 4;
    [16 + w11 - fs - ft, fs - w11, ft - w11, w11]
}

/// An LDR endpoint's channel expanded to 16 bits; alpha as the colours (02, request d).
#[inline]
pub fn expand(kind: Kind, c: u8) -> u32 {
    if kind == Kind::Srgb8 { 256 * c as u32 + 128 } else { 257 * c as u32 }
}

#[cfg(test)]
mod tests {
    use super::*;

    #[test]
    fn transfers() {
        assert_eq!(transfer(192, 100), (-32, 178));
        for a in 0..=255 {
            for b in 0..=255 {
                let (offset, base) = transfer(a, b);
                assert!((-32..=31).contains(&offset) && (0..=255).contains(&base));
            }
        }
    }

    #[test]
    fn pairs() {
        assert_eq!(endpoint_pair(1, &[255, 255]), [[255; 4]; 2]);
        // Clamping comes after the contraction: red (0 - 32 + 255) / 2.
        let v = [0, 64, 0, 64, 254, 254];
        assert_eq!(transfer(64, 0), (-32, 0));
        assert_eq!(transfer(254, 254), (-1, 255));
        assert_eq!(endpoint_pair(9, &v), [[111, 111, 254, 255], [127, 127, 255, 255]]);
    }

    #[test]
    fn infill() {
        assert_eq!(grid_place(8, 8, 7), (7, 0));
        for side in [3, 4, 5, 6, 8, 10, 12] {
            // A grid as wide as the footprint is taken as it is.
            for at in 0..side {
                assert_eq!(grid_place(side, side, at), (at, 0));
            }
            for grid in 2..=side {
                assert_eq!(grid_place(side, grid, 0), (0, 0));
                assert_eq!(grid_place(side, grid, side - 1), (grid - 1, 0));
            }
        }
    }

    /// 000's procedure, word for word.
    fn select_partition(mut seed: u32, x: u32, y: u32, z: u32, count: u32, small_block: bool) -> usize {
        let [x, y, z] = [x, y, z].map(|n| n << small_block as u32);
        seed += (count - 1) * 1024;
        let rnum = hash52(seed);
        let seeds = [0, 4, 8, 12, 16, 20, 24, 28, 18, 22, 26].map(|shift| rnum >> shift & 0xF);
        let seed12 = (rnum >> 30 | rnum << 2) & 0xF;
        let (sh1, sh2);
        if seed & 1 != 0 {
            sh1 = if seed & 2 != 0 { 4 } else { 5 };
            sh2 = if count == 3 { 6 } else { 5 };
        } else {
            sh1 = if count == 3 { 6 } else { 5 };
            sh2 = if seed & 2 != 0 { 4 } else { 5 };
        }
        let sh3 = if seed & 0x10 != 0 { sh1 } else { sh2 };
        // seed1 is at(1), and so on
        let at = |n: usize| {
            let s = if n == 12 { seed12 } else { seeds[n - 1] };
            s * s
                >> if n > 8 {
                    sh3
                } else if n % 2 == 1 {
                    sh1
                } else {
                    sh2
                }
        };
        let a = (at(1) * x + at(2) * y + at(11) * z + (rnum >> 14)) & 0x3F;
        let b = (at(3) * x + at(4) * y + at(12) * z + (rnum >> 10)) & 0x3F;
        let c = (at(5) * x + at(6) * y + at(9) * z + (rnum >> 6)) & 0x3F;
        let d = (at(7) * x + at(8) * y + at(10) * z + (rnum >> 2)) & 0x3F;
        let d = if count < 4 { 0 } else { d };
        let c = if count < 3 { 0 } else { c };
        if a >= b && a >= c && a >= d {
            0
        } else if b >= c && b >= d {
            1
        } else if c >= d {
            2
        } else {
            3
        }
    }

    #[test]
    fn patterns() {
        for (index, count) in (0..1024).flat_map(|index| [2, 3, 4].map(|count| (index, count))) {
            for small in [false, true] {
                let patterns = Patterns::new(index as u16, count as usize, small);
                for (x, y, z) in [(0, 0, 0), (5, 0, 0), (0, 5, 0), (0, 0, 5), (1, 2, 3), (3, 1, 2), (2, 5, 4)] {
                    let found = patterns.layer(z as usize).partition(x as usize, y as usize);
                    assert_eq!(found, select_partition(index, x, y, z, count, small), "{index} {count} {x} {y} {z}");
                }
            }
        }
    }
}

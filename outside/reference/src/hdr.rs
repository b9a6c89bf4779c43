//! HDR (02, i): 000's endpoint modes 2, 3, 7, 11, 14 and 15, and the half floats that a texel's channels become.

use crate::colour::endpoint_pair;

/// 1.0 as an endpoint of 12 bits.
const ONE: i32 = 0x780;

/// Two colours of 12 bits.
type Colours = [[i32; 3]; 2];

fn clamp(v: i32) -> i32 {
    v.clamp(0, 0xFFF)
}

/// Mode 2: luminance, large range.
fn large_range(v0: i32, v1: i32) -> [i32; 2] {
    if v1 >= v0 { [v0 << 4, v1 << 4] } else { [(v1 << 4) + 8, (v0 << 4) - 8] }
}

/// Mode 3: luminance, small range.
fn small_range(v0: i32, v1: i32) -> [i32; 2] {
    let (base, delta) = if v0 & 0x80 != 0 {
        ((v1 & 0xE0) << 4 | (v0 & 0x7F) << 2, (v1 & 0x1F) << 2)
    } else {
        ((v1 & 0xF0) << 4 | (v0 & 0x7F) << 1, (v1 & 0x0F) << 1)
    };
    [base, clamp(base + delta)]
}

/// The colour with its major component, decoded as red, put into its place.
fn swizzled(major: i32, mut colour: [i32; 3]) -> [i32; 3] {
    colour.swap(0, major as usize);
    colour
}

/// Mode 7: a base and a scale.
fn base_scale(v: [i32; 4]) -> Colours {
    let modeval = (v[0] & 0xC0) >> 6 | (v[1] & 0x80) >> 5 | (v[2] & 0x80) >> 4;
    let (major, mode) = match modeval {
        0xF => (0, 5),
        0xC.. => (modeval & 3, 4),
        _ => (modeval >> 2, modeval & 3),
    };
    let (mut red, mut green, mut blue, mut scale) = (v[0] & 0x3F, v[1] & 0x1F, v[2] & 0x1F, v[3] & 0x1F);
    let [x0, x1, x2, x3, x4, x5, x6] =
        [v[1] >> 6, v[1] >> 5, v[2] >> 6, v[2] >> 5, v[3] >> 7, v[3] >> 6, v[3] >> 5].map(|b| b & 1);
    // The bit at its place, in the modes of the mask.
    let put = |mask: i32, bit: i32, place: i32| if mask >> mode & 1 != 0 { bit << place } else { 0 };
    green |= put(0x30, x0, 6) | put(0x3A, x1, 5);
    blue |= put(0x30, x2, 6) | put(0x3A, x3, 5);
    scale |= put(0x3D, x6, 5) | put(0x2D, x5, 6) | put(0x04, x4, 7);
    red |= put(0x3B, x4, 6) | put(0x04, x3, 6) | put(0x10, x5, 7) | put(0x0F, x2, 7);
    red |= put(0x05, x1, 8) | put(0x0A, x0, 8) | put(0x05, x0, 9) | put(0x02, x6, 9);
    red |= put(0x01, x3, 10) | put(0x02, x5, 10);
    let shift = [1, 1, 2, 3, 4, 5][mode as usize];
    let [red, mut green, mut blue, scale] = [red, green, blue, scale].map(|n| n << shift);
    if mode != 5 {
        (green, blue) = (red - green, red - blue);
    }
    let colour = swizzled(major, [red, green, blue]);
    [colour.map(|c| clamp(c - scale)), colour.map(clamp)]
}

/// The low n bits as a signed number.
fn sign_extended(v: i32, n: u32) -> i32 {
    v << (32 - n) >> (32 - n)
}

/// Mode 11: two colours. 000 prints `modeval` for `mode` in the shift.
fn direct(v: [i32; 6]) -> Colours {
    let major = (v[4] & 0x80) >> 7 | (v[5] & 0x80) >> 6;
    if major == 3 {
        return [[v[0] << 4, v[2] << 4, (v[4] & 0x7F) << 5], [v[1] << 4, v[3] << 4, (v[5] & 0x7F) << 5]];
    }
    let mode = (v[1] & 0x80) >> 7 | (v[2] & 0x80) >> 6 | (v[3] & 0x80) >> 5;
    let (mut a, mut b0, mut b1, mut c) = (v[0] | (v[1] & 0x40) << 2, v[2] & 0x3F, v[3] & 0x3F, v[1] & 0x3F);
    let d_bits = [7, 6, 7, 6, 5, 6, 5, 6][mode as usize];
    let (d0, d1) = (sign_extended(v[4], d_bits), sign_extended(v[5], d_bits));
    let [x0, x1, x2, x3, x4, x5] = [v[2] >> 6, v[3] >> 6, v[4] >> 6, v[5] >> 6, v[4] >> 5, v[5] >> 5].map(|b| b & 1);
    let put = |mask: i32, bit: i32, place: i32| if mask >> mode & 1 != 0 { bit << place } else { 0 };
    a |= put(0xA4, x0, 9) | put(0x08, x2, 9) | put(0x50, x4, 9);
    a |= put(0x50, x5, 10) | put(0xA0, x1, 10) | put(0xC0, x2, 11);
    c |= put(0x04, x1, 6) | put(0xE8, x3, 6) | put(0x20, x2, 7);
    b0 |= put(0x5B, x0, 6) | put(0x12, x2, 7);
    b1 |= put(0x5B, x1, 6) | put(0x12, x3, 7);
    let shift = (mode >> 1) ^ 3;
    let [a, b0, b1, c, d0, d1] = [a, b0, b1, c, d0, d1].map(|n| n << shift);
    let e0 = [a - c, a - b0 - c - d0, a - b1 - c - d1];
    let e1 = [a, a - b0, a - b1];
    [e0, e1].map(|e| swizzled(major, e.map(clamp)))
}

/// Mode 15's alphas.
fn alphas(v6: i32, v7: i32) -> [i32; 2] {
    let mode = v6 >> 7 & 1 | v7 >> 6 & 2;
    let (mut v6, mut v7) = (v6 & 0x7F, v7 & 0x7F);
    if mode == 3 {
        return [v6 << 5, v7 << 5];
    }
    v6 |= (v7 << (mode + 1)) & 0x780;
    v7 &= 0x3F >> mode;
    v7 ^= 0x20 >> mode;
    v7 -= 0x20 >> mode;
    v6 <<= 4 - mode;
    v7 <<= 4 - mode;
    [v6, clamp(v6 + v7)]
}

/// Whether each channel of a partition with this mode is HDR.
pub const fn hdr_channels(mode: u8) -> [bool; 4] {
    match mode {
        2 | 3 | 7 | 11 | 15 => [true; 4],
        14 => [true, true, true, false],
        _ => [false; 4],
    }
}

/// The pair that any mode makes of its unquantised numbers, expanded to 16 bits: HDR channels 12 bits << 4, LDR ones 257 c.
pub fn expanded_pair(mode: u8, v: &[u8]) -> [[i32; 4]; 2] {
    let n = |i: usize| v[i] as i32;
    let (colours, alphas) = match mode {
        2 => (large_range(n(0), n(1)).map(|y| [y; 3]), [ONE; 2]),
        3 => (small_range(n(0), n(1)).map(|y| [y; 3]), [ONE; 2]),
        7 => (base_scale(std::array::from_fn(n)), [ONE; 2]),
        11 => (direct(std::array::from_fn(n)), [ONE; 2]),
        14 => (direct(std::array::from_fn(n)), [n(6), n(7)]),
        15 => (direct(std::array::from_fn(n)), alphas(n(6), n(7))),
        _ => return endpoint_pair(mode, v).map(|end| end.map(|c| 257 * c as i32)),
    };
    let alpha = if mode == 14 { 257 } else { 16 };
    [0, 1].map(|e| [16 * colours[e][0], 16 * colours[e][1], 16 * colours[e][2], alpha * alphas[e]])
}

/// How many ways of reading its numbers an HDR mode has; 0 for an LDR mode.
pub const fn submodes(mode: u8) -> usize {
    match mode {
        2 | 3 => 2,
        7 => 16,
        11 | 14 => 32,
        15 => 128,
        _ => 0,
    }
}

/// Which of them the unquantised numbers choose: mode 2 by their order, the others by their mode bits, major components included.
pub fn submode(mode: u8, v: &[u8]) -> usize {
    let bit = |i: usize| v[i] as usize >> 7;
    let direct = || bit(1) | bit(2) << 1 | bit(3) << 2 | bit(4) << 3 | bit(5) << 4;
    match mode {
        2 => (v[1] < v[0]) as usize,
        3 => bit(0),
        7 => v[0] as usize >> 6 | bit(1) << 2 | bit(2) << 3,
        11 | 14 => direct(),
        15 => direct() | bit(6) << 5 | bit(7) << 6,
        _ => 0,
    }
}

/// The half float of an LDR channel: 1.0 for 65535, else c / 65536 rounded towards zero.
#[inline(always)]
pub fn unorm_half(c: u16) -> u16 {
    if c == 65535 {
        return 0x3C00;
    }
    let zeros = c.leading_zeros();
    if zeros > 13 {
        // Below 2^-14, in steps of 2^-24.
        return c << 8;
    }
    // The bits below the leading one, ten of them.
    ((14 - zeros) << 10) as u16 | (c << zeros << 1) >> 6
}

/// The half float of an HDR channel, infinities and NaN the largest finite one.
#[inline(always)]
pub fn lns_half(c: u16) -> u16 {
    let (e, m) = (c >> 11, c & 0x7FF);
    let mt = if m < 512 {
        3 * m
    } else if m >= 1536 {
        5 * m - 2048
    } else {
        4 * m - 512
    };
    ((e << 10) + (mt >> 3)).min(0x7BFF)
}

/// The half float of a mixed channel.
#[inline(always)]
pub fn half(hdr: bool, c: u16) -> u16 {
    if hdr { lns_half(c) } else { unorm_half(c) }
}

#[cfg(test)]
mod tests {
    use super::*;
    use crate::random::Random;

    /// A finite half float without sign, in units of 2^-24.
    fn worth(pattern: u16) -> u64 {
        let (exponent, mantissa) = (pattern as u64 >> 10, pattern as u64 & 0x3FF);
        if exponent == 0 { mantissa } else { (1024 + mantissa) << (exponent - 1) }
    }

    /// The largest half float that is not above c / 65536.
    #[test]
    fn rounded_towards_zero() {
        for c in 0..65535u16 {
            let (pattern, exact) = (unorm_half(c), (c as u64) << 8);
            assert!(worth(pattern) <= exact && exact < worth(pattern + 1), "{c}");
        }
        assert_eq!(unorm_half(65535), 0x3C00);
        assert_eq!([0, 1, 2, 3, 4, 5, 21504, 65534].map(unorm_half), [0, 256, 512, 768, 0x400, 0x500, 0x3540, 0x3BFF]);
    }

    /// It grows, is whole at the ends of the three parts, and stops at the largest finite one.
    #[test]
    fn logarithmic() {
        assert_eq!([0, 511, 512, 1535, 1536, 2047, 2048].map(lns_half), [0, 191, 192, 703, 704, 1023, 1024]);
        assert_eq!(lns_half(0x780 << 4), 0x3C00);
        assert_eq!([0xF7FF, 0xF800, 0xFFFF].map(lns_half), [0x7BFF; 3]);
        for c in 1..=65535u16 {
            let (before, here) = (lns_half(c - 1), lns_half(c));
            assert!(before <= here && here <= before + 1 && here <= 0x7BFF, "{c}");
        }
    }

    #[test]
    fn luminance() {
        assert_eq!(large_range(3, 200), [48, 3200]);
        assert_eq!(large_range(7, 7), [112, 112]);
        assert_eq!(large_range(200, 3), [56, 3192]);
        assert_eq!(small_range(0x25, 0x9A), [0x900 | 0x4A, 0x94A + 20]);
        assert_eq!(small_range(0xA5, 0x9A), [0x800 | 0x94, 0x894 + 104]);
        assert_eq!(small_range(0xFF, 0xFF), [0xFFC, 0xFFF]);
    }

    /// Bits of numbers, highest first, from a printed layout such as "M3 M2 R5 R4".
    type Layout = [&'static str; 8];

    fn gather(layout: &[Layout], v: &[i32], names: &[(String, usize)], name: &str) -> i32 {
        let mut value = 0;
        for (number, places) in v.iter().zip(layout) {
            for (k, label) in places.iter().enumerate() {
                let bit = number >> (7 - k) & 1;
                let (to, place) = match label.strip_prefix('X') {
                    Some(x) => names[x.parse::<usize>().unwrap()].clone(),
                    None => (label[..label.len() - 1].to_string(), label[label.len() - 1..].parse().unwrap()),
                };
                if to == name {
                    value |= bit << place;
                }
            }
        }
        value
    }

    /// "R9" as R and 9.
    fn destinations(row: &str) -> Vec<(String, usize)> {
        row.split(' ').map(|d| d.split_once('.').unwrap()).map(|(n, p)| (n.into(), p.parse().unwrap())).collect()
    }

    const LAYOUT_7: [Layout; 4] = [
        ["M3", "M2", "R5", "R4", "R3", "R2", "R1", "R0"],
        ["M1", "X0", "X1", "G4", "G3", "G2", "G1", "G0"],
        ["M0", "X2", "X3", "B4", "B3", "B2", "B1", "B0"],
        ["X4", "X5", "X6", "S4", "S3", "S2", "S1", "S0"],
    ];

    /// Bits of R, and the destinations of X0 to X6, as 000 prints them.
    const TABLE_7: [(i32, &str); 6] = [
        (11, "R.9 R.8 R.7 R.10 R.6 S.6 S.5"),
        (11, "R.8 G.5 R.7 B.5 R.6 R.10 R.9"),
        (10, "R.9 R.8 R.7 R.6 S.7 S.6 S.5"),
        (9, "R.8 G.5 R.7 B.5 R.6 S.6 S.5"),
        (8, "G.6 G.5 B.6 B.5 R.6 R.7 S.5"),
        (7, "G.6 G.5 B.6 B.5 R.6 S.6 S.5"),
    ];

    /// Mode 7 by 000's tables: the major component and the bit mode are told by the procedure's numbering of the mode bits.
    fn base_scale_by_table(v: [i32; 4]) -> Colours {
        let modeval = v[0] >> 6 | v[1] >> 7 << 2 | v[2] >> 7 << 3;
        let (major, mode) = match modeval {
            0..12 => (modeval / 4, modeval % 4),
            12..15 => (modeval - 12, 4),
            _ => (0, 5),
        };
        let (bits, row) = TABLE_7[mode as usize];
        let part = |name| gather(&LAYOUT_7, &v, &destinations(row), name) << (12 - bits);
        let (r, s) = (part("R"), part("S"));
        let (g, b) = if mode == 5 { (part("G"), part("B")) } else { (r - part("G"), r - part("B")) };
        let colour = match major {
            1 => [g, r, b],
            2 => [b, g, r],
            _ => [r, g, b],
        };
        [colour.map(|c| clamp(c - s)), colour.map(clamp)]
    }

    const LAYOUT_11: [Layout; 6] = [
        ["a7", "a6", "a5", "a4", "a3", "a2", "a1", "a0"],
        ["m0", "a8", "c5", "c4", "c3", "c2", "c1", "c0"],
        ["m1", "X0", "p5", "p4", "p3", "p2", "p1", "p0"],
        ["m2", "X1", "q5", "q4", "q3", "q2", "q1", "q0"],
        ["j0", "X2", "X4", "e4", "e3", "e2", "e1", "e0"],
        ["j1", "X3", "X5", "f4", "f3", "f2", "f1", "f0"],
    ];

    /// Bits of a and of d, and the destinations of X0 to X5; p and q are b0 and b1, e and f are d0 and d1.
    const TABLE_11: [(i32, i32, &str); 8] = [
        (9, 7, "p.6 q.6 e.6 f.6 e.5 f.5"),
        (9, 6, "p.6 q.6 p.7 q.7 e.5 f.5"),
        (10, 7, "a.9 c.6 e.6 f.6 e.5 f.5"),
        (10, 6, "p.6 q.6 a.9 c.6 e.5 f.5"),
        (11, 5, "p.6 q.6 p.7 q.7 a.9 a.10"),
        (11, 6, "a.9 a.10 c.7 c.6 e.5 f.5"),
        (12, 5, "p.6 q.6 a.11 c.6 a.9 a.10"),
        (12, 6, "a.9 a.10 a.11 c.6 e.5 f.5"),
    ];

    /// Mode 11 by 000's tables, majors 0 to 2.
    fn direct_by_table(v: [i32; 6]) -> Colours {
        let major = v[4] >> 7 | v[5] >> 7 << 1;
        let mode = v[1] >> 7 | v[2] >> 7 << 1 | v[3] >> 7 << 2;
        let (bits, d_bits, row) = TABLE_11[mode as usize];
        let part = |name| gather(&LAYOUT_11, &v, &destinations(row), name) << (12 - bits);
        let signed = |name| {
            let d = gather(&LAYOUT_11, &v, &destinations(row), name);
            (if d >> (d_bits - 1) & 1 == 1 { d - (1 << d_bits) } else { d }) << (12 - bits)
        };
        let (a, b0, b1, c, d0, d1) = (part("a"), part("p"), part("q"), part("c"), signed("e"), signed("f"));
        let order = |e: [i32; 3]| match major {
            1 => [e[1], e[0], e[2]],
            2 => [e[2], e[1], e[0]],
            _ => e,
        };
        [[a - c, a - b0 - c - d0, a - b1 - c - d1], [a, a - b0, a - b1]].map(|e| order(e.map(clamp)))
    }

    /// The procedures put the extra bits where the printed tables put them, in every mode and for every major component.
    #[test]
    fn tables() {
        let mut r = Random(7);
        let (mut seven, mut eleven) = ([0; 16], [0; 32]);
        for _ in 0..100_000 {
            let v: [i32; 6] = r.bytes()[..6].try_into().map(|b: [u8; 6]| b.map(i32::from)).unwrap();
            let four = [v[0], v[1], v[2], v[3]];
            assert_eq!(base_scale(four), base_scale_by_table(four), "{four:?}");
            seven[(v[0] >> 6 | v[1] >> 7 << 2 | v[2] >> 7 << 3) as usize] += 1;
            let major = v[4] >> 7 | v[5] >> 7 << 1;
            if major < 3 {
                assert_eq!(direct(v), direct_by_table(v), "{v:?}");
            }
            eleven[(v[1] >> 7 | v[2] >> 7 << 1 | v[3] >> 7 << 2 | major << 3) as usize] += 1;
        }
        assert!(seven.into_iter().chain(eleven).all(|n| n > 1000));
        assert_eq!(direct([1, 2, 3, 4, 0x85, 0x86]), [[16, 48, 160], [32, 64, 192]]);
    }

    #[test]
    fn alpha() {
        assert_eq!(alphas(0x85, 0x86), [5 << 5, 6 << 5]);
        // mode 0: one bit of v7, an offset of six
        assert_eq!(alphas(0x05, 0x41), [(0x05 | 0x80) << 4, ((0x05 | 0x80) << 4) + 16]);
        assert_eq!(alphas(0x05, 0x20), [5 << 4, 0]);
        // mode 1: two bits of v7, an offset of five
        assert_eq!(alphas(0x85, 0x6F), [(0x05 | 0x180) << 3, ((0x05 | 0x180) << 3) + (15 << 3)]);
        // mode 2: three bits of v7, an offset of four
        assert_eq!(alphas(0x05, 0xF8), [(0x05 | 0x380) << 2, ((0x05 | 0x380) << 2) - (8 << 2)]);
        assert_eq!(alphas(0x7F, 0x5F), [0xFF0, 0xFFF]);
    }

    #[test]
    fn pairs() {
        assert_eq!(hdr_channels(14), [true, true, true, false]);
        assert_eq!(expanded_pair(2, &[3, 200]), [[768, 768, 768, 0x7800], [51200, 51200, 51200, 0x7800]]);
        let v = [1, 2, 3, 4, 0x85, 0x86, 9, 255];
        assert_eq!(expanded_pair(14, &v), [[256, 768, 2560, 9 * 257], [512, 1024, 3072, 65535]]);
        assert_eq!(expanded_pair(15, &v)[0], [256, 768, 2560, alphas(9, 255)[0] << 4]);
        assert_eq!(expanded_pair(11, &v)[1], [512, 1024, 3072, 0x7800]);
        assert_eq!(expanded_pair(0, &[1, 2]), [[257, 257, 257, 65535], [514, 514, 514, 65535]]);
    }
}

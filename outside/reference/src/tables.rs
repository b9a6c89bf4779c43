//! Tables computed from the printed bit rules: packed digits, unquantisation, block modes.

/// What the high part of a stored number is.
#[derive(Clone, Copy, PartialEq, Eq, Debug)]
pub enum Digit {
    None,
    Trit,
    Quint,
}

/// How numbers 0..=most are stored: a digit and `bits` low bits.
#[derive(Clone, Copy, Debug)]
pub struct Encoding {
    pub most: u16,
    pub digit: Digit,
    pub bits: u32,
}

const fn plain(bits: u32) -> Encoding {
    Encoding { most: (1 << bits) - 1, digit: Digit::None, bits }
}

const fn trit(bits: u32) -> Encoding {
    Encoding { most: (3 << bits) - 1, digit: Digit::Trit, bits }
}

const fn quint(bits: u32) -> Encoding {
    Encoding { most: (5 << bits) - 1, digit: Digit::Quint, bits }
}

/// The twelve weight ranges.
#[rustfmt::skip]
pub const WEIGHT_RANGES: [Encoding; 12] = [
    plain(1), trit(0), plain(2), quint(0), trit(1), plain(3),
    quint(1), trit(2), plain(4), quint(2), trit(3), plain(5),
];

/// The seventeen ranges of colour endpoint numbers.
#[rustfmt::skip]
pub const ENDPOINT_RANGES: [Encoding; 17] = [
    trit(1), plain(3), quint(1), trit(2), plain(4), quint(2), trit(3), plain(5), quint(3),
    trit(4), plain(6), quint(4), trit(5), plain(7), quint(5), trit(6), plain(8),
];

/// Bits high..=low of x.
const fn field(x: u32, high: u32, low: u32) -> u32 {
    (x >> low) & ((1 << (high - low + 1)) - 1)
}

/// 000, "Integer Sequence Encoding": t0 to t4 of an 8-bit code.
const fn trits_of(t: u32) -> [u8; 5] {
    let (c, t3, t4);
    if field(t, 4, 2) == 0b111 {
        c = field(t, 7, 5) << 2 | field(t, 1, 0);
        t4 = 2;
        t3 = 2;
    } else {
        c = field(t, 4, 0);
        if field(t, 6, 5) == 0b11 {
            t4 = 2;
            t3 = field(t, 7, 7);
        } else {
            t4 = field(t, 7, 7);
            t3 = field(t, 6, 5);
        }
    }
    let (t0, t1, t2);
    if field(c, 1, 0) == 0b11 {
        t2 = 2;
        t1 = field(c, 4, 4);
        t0 = field(c, 3, 3) << 1 | (field(c, 2, 2) & !field(c, 3, 3));
    } else if field(c, 3, 2) == 0b11 {
        t2 = 2;
        t1 = 2;
        t0 = field(c, 1, 0);
    } else {
        t2 = field(c, 4, 4);
        t1 = field(c, 3, 2);
        t0 = field(c, 1, 1) << 1 | (field(c, 0, 0) & !field(c, 1, 1));
    }
    [t0 as u8, t1 as u8, t2 as u8, t3 as u8, t4 as u8]
}

/// 000, "Integer Sequence Encoding": q0 to q2 of a 7-bit code.
const fn quints_of(q: u32) -> [u8; 3] {
    let (q0, q1, q2);
    if field(q, 2, 1) == 0b11 && field(q, 6, 5) == 0b00 {
        let not = !field(q, 0, 0) & 1;
        q2 = field(q, 0, 0) << 2 | (field(q, 4, 4) & not) << 1 | (field(q, 3, 3) & not);
        q1 = 4;
        q0 = 4;
    } else {
        let c;
        if field(q, 2, 1) == 0b11 {
            q2 = 4;
            c = field(q, 4, 3) << 3 | (!field(q, 6, 5) & 3) << 1 | field(q, 0, 0);
        } else {
            q2 = field(q, 6, 5);
            c = field(q, 4, 0);
        }
        if field(c, 2, 0) == 0b101 {
            q1 = 4;
            q0 = field(c, 4, 3);
        } else {
            q1 = field(c, 4, 3);
            q0 = field(c, 2, 0);
        }
    }
    [q0 as u8, q1 as u8, q2 as u8]
}

/// Digits of all trit codes.
pub static TRITS: [[u8; 5]; 256] = {
    let mut table = [[0; 5]; 256];
    let mut code = 0;
    while code < 256 {
        table[code] = trits_of(code as u32);
        code += 1;
    }
    table
};

/// Digits of all quint codes.
pub static QUINTS: [[u8; 3]; 128] = {
    let mut table = [[0; 3]; 128];
    let mut code = 0;
    while code < 128 {
        table[code] = quints_of(code as u32);
        code += 1;
    }
    table
};

/// Smallest trit code by digits present (1 to 5) and their number in base 3, first digit lowest.
pub static TRIT_CODES: [[u8; 243]; 6] = {
    let mut table = [[0; 243]; 6];
    let mut code = 256;
    while code > 0 {
        code -= 1;
        let digits = trits_of(code as u32);
        let (mut present, mut index, mut place) = (0, 0, 1);
        while present < 5 {
            index += digits[present] as usize * place;
            place *= 3;
            present += 1;
            table[present][index] = code as u8;
        }
    }
    table
};

/// Smallest quint code by digits present (1 to 3) and their number in base 5, first digit lowest.
pub static QUINT_CODES: [[u8; 125]; 4] = {
    let mut table = [[0; 125]; 4];
    let mut code = 128;
    while code > 0 {
        code -= 1;
        let digits = quints_of(code as u32);
        let (mut present, mut index, mut place) = (0, 0, 1);
        while present < 3 {
            index += digits[present] as usize * place;
            place *= 5;
            present += 1;
            table[present][index] = code as u8;
        }
    }
    table
};

/// A printed bit layout such as "cb000cbcb"; a is the lowest bit of m, b the next, and so on.
const fn layout(pattern: &[u8], m: u32) -> u32 {
    let mut value = 0;
    let mut i = 0;
    while i < pattern.len() {
        let bit = if pattern[i] == b'0' { 0 } else { (m >> (pattern[i] - b'a')) & 1 };
        value = value << 1 | bit;
        i += 1;
    }
    value
}

/// Bit replication from the most significant bit, to `width` bits.
const fn replicate(value: u32, bits: u32, width: u32) -> u32 {
    let mut result = 0;
    let mut i = 0;
    while i < width {
        result = result << 1 | (value >> (bits - 1 - i % bits)) & 1;
        i += 1;
    }
    result
}

/// 000, "Endpoint Unquantization".
const fn unquantise_endpoint(encoding: Encoding, stored: u32) -> u32 {
    let bits = encoding.bits;
    let (b, c): (&[u8], u32) = match (encoding.digit, bits) {
        (Digit::None, _) => return replicate(stored, bits, 8),
        (Digit::Trit, 1) => (b"000000000", 204),
        (Digit::Trit, 2) => (b"b000b0bb0", 93),
        (Digit::Trit, 3) => (b"cb000cbcb", 44),
        (Digit::Trit, 4) => (b"dcb000dcb", 22),
        (Digit::Trit, 5) => (b"edcb000ed", 11),
        (Digit::Trit, _) => (b"fedcb000f", 5),
        (Digit::Quint, 1) => (b"000000000", 113),
        (Digit::Quint, 2) => (b"b0000bb00", 54),
        (Digit::Quint, 3) => (b"cb0000cbc", 26),
        (Digit::Quint, 4) => (b"dcb0000dc", 13),
        (Digit::Quint, _) => (b"edcb0000e", 6),
    };
    let (digit, m) = (stored >> bits, stored & ((1 << bits) - 1));
    let a = layout(b"aaaaaaaaa", m);
    let t = (digit * c + layout(b, m)) ^ a;
    (a & 0x80) | (t >> 2)
}

/// 000, "Weight Unquantization".
const fn unquantise_weight(encoding: Encoding, stored: u32) -> u32 {
    let bits = encoding.bits;
    let (digit, m) = (stored >> bits, stored & ((1 << bits) - 1));
    let a = layout(b"aaaaaaa", m);
    let (b, c): (&[u8], u32) = match (encoding.digit, bits) {
        (Digit::Trit, 1) => (b"0000000", 50),
        (Digit::Trit, 2) => (b"b000b0b", 23),
        (Digit::Trit, _) => (b"cb000cb", 11),
        (_, 1) => (b"0000000", 28),
        _ => (b"b0000b0", 13),
    };
    let t = match (encoding.digit, bits) {
        (Digit::None, _) => replicate(stored, bits, 6),
        (Digit::Trit, 0) => [0, 32, 63][stored as usize],
        (Digit::Quint, 0) => [0, 16, 32, 47, 63][stored as usize],
        _ => (a & 0x20) | (((digit * c + layout(b, m)) ^ a) >> 2),
    };
    if t > 32 { t + 1 } else { t }
}

/// Unquantised endpoint (0..=255) by range and stored number.
pub static ENDPOINTS: [[u8; 256]; 17] = {
    let mut table = [[0; 256]; 17];
    let mut range = 0;
    while range < 17 {
        let encoding = ENDPOINT_RANGES[range];
        let mut stored = 0;
        while stored <= encoding.most as usize {
            table[range][stored] = unquantise_endpoint(encoding, stored as u32) as u8;
            stored += 1;
        }
        range += 1;
    }
    table
};

/// Unquantised weight (0..=64) by range and stored number.
pub static WEIGHTS: [[u8; 32]; 12] = {
    let mut table = [[0; 32]; 12];
    let mut range = 0;
    while range < 12 {
        let encoding = WEIGHT_RANGES[range];
        let mut stored = 0;
        while stored <= encoding.most as usize {
            table[range][stored] = unquantise_weight(encoding, stored as u32) as u8;
            stored += 1;
        }
        range += 1;
    }
    table
};

/// What bits 10..0 of a block mean.
#[derive(Clone, Copy, PartialEq, Eq, Debug)]
pub enum BlockMode {
    VoidExtent,
    Reserved,
    Grid(Grid),
}

/// Weight grid, weight range (0..=11) and planes of a block mode; its depth is 1 where the footprint is flat.
#[derive(Clone, Copy, PartialEq, Eq, Debug)]
pub struct Grid {
    pub width: u8,
    pub height: u8,
    pub depth: u8,
    pub range: u8,
    pub planes: u8,
}

/// 01, "Block mode".
const fn block_mode(mode: u32) -> BlockMode {
    if field(mode, 8, 0) == 0b111111100 {
        return BlockMode::VoidExtent;
    }
    let r0 = field(mode, 4, 4);
    let a = field(mode, 6, 5);
    let (mut d, mut h) = (field(mode, 10, 10), field(mode, 9, 9));
    let (r, width, height);
    if field(mode, 1, 0) != 0 {
        r = field(mode, 1, 0) << 1 | r0;
        let b = field(mode, 8, 7);
        (width, height) = match field(mode, 3, 2) {
            0 => (b + 4, a + 2),
            1 => (b + 8, a + 2),
            2 => (a + 2, b + 8),
            _ if field(mode, 8, 8) == 0 => (a + 2, field(mode, 7, 7) + 6),
            _ => (field(mode, 7, 7) + 2, a + 2),
        };
    } else {
        if field(mode, 3, 2) == 0 {
            return BlockMode::Reserved;
        }
        r = field(mode, 3, 2) << 1 | r0;
        (width, height) = match (field(mode, 8, 7), a) {
            (0, _) => (12, a + 2),
            (1, _) => (a + 2, 12),
            (2, _) => {
                d = 0;
                h = 0;
                (a + 6, field(mode, 10, 9) + 6)
            }
            (_, 0) => (6, 10),
            (_, 1) => (10, 6),
            _ => return BlockMode::Reserved,
        };
    }
    BlockMode::Grid(Grid {
        width: width as u8,
        height: height as u8,
        depth: 1,
        range: (r - 2 + 6 * h) as u8,
        planes: (d + 1) as u8,
    })
}

/// 000, "ASTC 3D block mode layout", row by row.
const fn volume_mode(mode: u32) -> BlockMode {
    if field(mode, 8, 0) == 0b111111100 {
        return BlockMode::VoidExtent;
    }
    let (high, low) = (field(mode, 10, 9), field(mode, 6, 5));
    // Dual plane and precision, but for the rows that take bits 10 and 9 for a side.
    let (mut d, mut p) = (field(mode, 10, 10), field(mode, 9, 9));
    let (rho, width, height, depth);
    if field(mode, 1, 0) != 0 {
        rho = field(mode, 1, 0) << 1 | field(mode, 4, 4);
        (width, height, depth) = (low + 2, field(mode, 8, 7) + 2, field(mode, 3, 2) + 2);
    } else {
        if field(mode, 3, 2) == 0 {
            return BlockMode::Reserved;
        }
        rho = field(mode, 3, 2) << 1 | field(mode, 4, 4);
        (width, height, depth) = match (field(mode, 8, 7), low) {
            (0, _) => (6, high + 2, low + 2),
            (1, _) => (low + 2, 6, high + 2),
            (2, _) => (low + 2, high + 2, 6),
            (_, 0) => (6, 2, 2),
            (_, 1) => (2, 6, 2),
            (_, 2) => (2, 2, 6),
            _ => return BlockMode::Reserved,
        };
        if field(mode, 8, 7) != 3 {
            (d, p) = (0, 0);
        }
    }
    BlockMode::Grid(Grid {
        width: width as u8,
        height: height as u8,
        depth: depth as u8,
        range: (rho - 2 + 6 * p) as u8,
        planes: (d + 1) as u8,
    })
}

/// All block modes of flat footprints, and of volumes.
pub static BLOCK_MODES: [[BlockMode; 2048]; 2] = {
    let mut tables = [[BlockMode::Reserved; 2048]; 2];
    let mut mode = 0;
    while mode < 2048 {
        tables[0][mode] = block_mode(mode as u32);
        tables[1][mode] = volume_mode(mode as u32);
        mode += 1;
    }
    tables
};

/// The smallest block mode by planes - 1, range, depth - 1, height and width of the grid; `NO_MODE` where there is none. Sides and depth of the
/// grids are below these.
const fn smallest_modes<const SIDE: usize, const DEPTH: usize>(
    volume: usize,
) -> [[[[[u16; SIDE]; SIDE]; DEPTH]; 12]; 2] {
    let mut numbers = [[[[[NO_MODE; SIDE]; SIDE]; DEPTH]; 12]; 2];
    let mut mode = 2048;
    while mode > 0 {
        mode -= 1;
        if let BlockMode::Grid(g) = BLOCK_MODES[volume][mode] {
            let [w, h, d] = [g.width as usize, g.height as usize, g.depth as usize];
            numbers[g.planes as usize - 1][g.range as usize][d - 1][h][w] = mode as u16;
        }
    }
    numbers
}

const NO_MODE: u16 = 2048;
static FLAT_NUMBERS: [[[[[u16; 13]; 13]; 1]; 12]; 2] = smallest_modes(0);
static VOLUME_NUMBERS: [[[[[u16; 7]; 7]; 6]; 12]; 2] = smallest_modes(1);

/// The smallest block mode with this grid, range (at most 11) and planes (1 or 2): width and height at most 12, depth 1 (of flat footprints) to 6.
pub fn mode_number([width, height, depth]: [usize; 3], range: usize, planes: usize) -> Option<u16> {
    let mode = match depth {
        1 => FLAT_NUMBERS[planes - 1][range][0][height][width],
        _ if width > 6 || height > 6 => NO_MODE,
        _ => VOLUME_NUMBERS[planes - 1][range][depth - 1][height][width],
    };
    (mode != NO_MODE).then_some(mode)
}

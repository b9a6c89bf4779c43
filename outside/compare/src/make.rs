//! Random cases.

use reference::random::*;
use reference::tables::WEIGHT_RANGES;
use reference::{ALL_FOOTPRINTS, FOOTPRINTS, NUMBERS, SymbolicBlock, is_volume, refusal, sides, write};

use crate::cases::{BlockCase, ImageCase, SymbolicCase};
use crate::volume::VolumeCase;

/// A block for any footprint: random, written, loosely written, mutated.
fn any_block(r: &mut Random, footprint: usize) -> [u8; 16] {
    match r.below(20) {
        0..4 => r.bytes(),
        4..7 => block_of_any_mode(r),
        7 => void_extent_block(r, footprint),
        8..13 => write(footprint, &any_symbolic_block(r, footprint)).unwrap(),
        13..16 => {
            let s = any_symbolic_block(r, footprint);
            loose_block(r, footprint, &s)
        }
        _ => {
            let block = write(footprint, &any_symbolic_block(r, footprint)).unwrap();
            flip_bits(r, block)
        }
    }
}

/// Any footprint, one in four a volume.
fn footprint(r: &mut Random) -> usize {
    if r.once_in(4) { volume_footprint(r) } else { flat_footprint(r) }
}

pub fn block(r: &mut Random) -> BlockCase {
    let footprint = footprint(r);
    let block = any_block(r, footprint);
    BlockCase::new(footprint, block)
}

/// Blocks of every block mode at every footprint that has some, written and loosely written; of two modes that say the same, both.
pub fn every_mode(r: &mut Random) -> Vec<BlockCase> {
    let mut cases = Vec::new();
    for f in 0..ALL_FOOTPRINTS {
        for mode in 0..2048 {
            for _ in 0..2 {
                let Some(s) = block_of_mode(r, f, mode) else { continue };
                let loose = loose_block(r, f, &s);
                for block in [write(f, &s).unwrap(), loose] {
                    cases.push(BlockCase::new(f, with_mode(block, mode)));
                }
            }
        }
    }
    cases
}

/// 02, g: blocks of every block mode with only the lowest spare bit set, only the highest, and all, with any fitting codes in their groups.
pub fn spare_bits(r: &mut Random) -> Vec<BlockCase> {
    let mut cases = Vec::new();
    for (f, mode) in (0..2048).flat_map(|mode| [(FOOTPRINTS.len() - 1, mode), (ALL_FOOTPRINTS - 1, mode)]) {
        for _ in 0..8 {
            let Some(s) = block_of_mode(r, f, mode) else { continue };
            let loose = loose_block(r, f, &s);
            cases.extend(spare_edges(f, loose).into_iter().map(|block| BlockCase::new(f, block)));
        }
    }
    cases
}

/// HDR: every endpoint mode with every submode and every block mode, at every footprint; ends and weights all least and all greatest; void
/// extents with infinities and NaN, and LDR ones with the least and greatest colours.
pub fn hdr_edges(r: &mut Random) -> Vec<BlockCase> {
    let mut cases = Vec::new();
    for f in 0..ALL_FOOTPRINTS {
        for s in every_submode(r, f) {
            cases.push(BlockCase::new(f, write(f, &s).unwrap()));
        }
        for mode in 0..2048 {
            let Some(s) = hdr_block_of_mode(r, f, mode) else { continue };
            let loose = loose_block(r, f, &s);
            cases.push(BlockCase::new(f, with_mode(loose, mode)));
        }
        for mode in HDR_MODES {
            for (n, weight) in [(0, 0), (0, 3), (255, 0), (255, 3), (127, 1), (128, 2)] {
                let mut s = block_of_submode(r, f, mode, 0);
                s.endpoints[..2 * (mode as usize / 4 + 1)].fill(n);
                let count = s.weight_count();
                s.weights[..count].fill(weight);
                cases.push(BlockCase::new(f, write(f, &s).unwrap()));
            }
        }
        for (hdr, colours) in [
            (0, [0, 1, 2, 3]),
            (0, [4, 5, 2047, 2049]),
            (0, [0x8000, 0xFFFD, 0xFFFE, 0xFFFF]),
            (1, [0, 0x8000, 0x7BFF, 0xFBFF]),
            (1, [0x7C00, 0xFC00, 0x7C01, 0xFC01]),
            (1, [0x7DFF, 0x7E00, 0x7FFF, 0xFFFF]),
        ] {
            let s = SymbolicBlock { hdr, colours, ..void_extent(r, f) };
            cases.push(BlockCase::new(f, write(f, &s).unwrap()));
        }
    }
    cases
}

/// The HDR mark against the modes, at every footprint: each mode with marks 0 to 3, alone, and with a number besides that 34 refuses.
pub fn hdr_marks(r: &mut Random) -> Vec<SymbolicCase> {
    let mut cases = Vec::new();
    for f in 0..ALL_FOOTPRINTS {
        for mode in 0..16 {
            let mut s = block_of_submode(r, f, 2, 0);
            s.modes[0] = mode;
            s.endpoints = [0; 18];
            for hdr in [0, 1, 2, 3, 255, 256, 257, 65535] {
                for (first, last, weight) in [(0, 0, 0), (0, 1, 0), (0, 0, 1), (256, 0, 0), (65535, 0, 0)] {
                    (s.hdr, s.endpoints[0], s.endpoints[17], s.weights[63]) = (hdr, first, last, weight);
                    cases.push(SymbolicCase::new(f as u8, &s.to_numbers()));
                }
            }
        }
        for hdr in [0, 1, 2, 3, 255, 256, 257, 65535] {
            cases.push(SymbolicCase::new(f as u8, &SymbolicBlock { hdr, ..void_extent(r, f) }.to_numbers()));
            // 31 comes before 12
            let extents = if is_volume(f) { [1, 1, 0, 1, 0, 1] } else { [1, 1, 0, 1, 0, 0] };
            let s = SymbolicBlock { hdr, extents, ..void_extent(r, f) };
            cases.push(SymbolicCase::new(f as u8, &s.to_numbers()));
        }
    }
    cases
}

/// A footprint from this one on, often itself.
fn footprint_from(r: &mut Random, first: usize) -> u8 {
    (if r.once_in(2) { first } else { first + r.below(256 - first) }) as u8
}

/// A footprint that is refused.
fn bad_footprint(r: &mut Random) -> u8 {
    footprint_from(r, ALL_FOOTPRINTS)
}

/// A footprint that is refused where flat ones only are taken.
fn bad_flat_footprint(r: &mut Random) -> u8 {
    footprint_from(r, FOOTPRINTS.len())
}

/// A length near the right one, or 0, or any.
fn other_length(r: &mut Random, right: usize) -> usize {
    match r.below(6) {
        0 => 0,
        1 => right + 1,
        2 => right.saturating_sub(1),
        3 => 2 * right,
        4 => right / 4,
        _ => r.below(2 * right + 2),
    }
}

/// A block call that is refused; several reasons may hold at once.
pub fn refused_block(r: &mut Random) -> BlockCase {
    let mut case = block(r);
    let reason = 1 + r.below(31);
    if reason & 1 != 0 {
        case.footprint = bad_footprint(r);
    }
    if reason & 2 != 0 {
        let len = other_length(r, 16);
        case.block.resize(len, 0x42);
    }
    if reason & 4 != 0 {
        case.out_len = other_length(r, case.out_len);
    }
    if reason & 8 != 0 {
        case.numbers_len = other_length(r, NUMBERS);
    }
    if reason & 16 != 0 {
        case.spare_len = other_length(r, 2);
    }
    case
}

/// Values at the fields' limits.
const LIMITS: [u16; 31] = [
    0, 1, 2, 3, 4, 5, 6, 7, 8, 11, 12, 13, 15, 16, 31, 32, 63, 64, 191, 255, 256, 510, 511, 512, 1023, 1024, 8190,
    8191, 8192, 32768, 65535,
];

/// Numbers of a symbolic block: acceptable, nearly so, or anything.
pub fn symbolic(r: &mut Random) -> SymbolicCase {
    let f = footprint(r);
    let sort = r.below(16);
    let s = match sort {
        0..3 => any_symbolic_block(r, f),
        3..11 => {
            let mut s = any_symbolic_block(r, f);
            let used = Used::new(&s);
            for _ in 0..1 + r.below(2) {
                spoil(r, &mut s, &used);
            }
            s
        }
        11..13 => {
            // Settings that no block of this footprint may have; numbers where they are acceptable.
            let mut s = SymbolicBlock { hdr: r.below(2) as u16, ..settings(r, f, true) };
            if refusal(f, &s) == 0 {
                fill_numbers(r, &mut s);
            }
            s
        }
        13 if r.once_in(2) => unmarked_block(r, f),
        13 => SymbolicBlock { hdr: 1, ..mode_block(r, f) },
        14 => {
            let mut numbers = [0; NUMBERS];
            for number in &mut numbers {
                *number = r.pick(&LIMITS);
            }
            SymbolicBlock::from_numbers(&numbers)
        }
        _ => {
            let mut s = void_extent(r, f);
            let axis = r.below(if is_volume(f) { 3 } else { 2 });
            match r.below(4) {
                0 | 1 => s.extents.swap(2 * axis, 2 * axis + 1),
                2 => s.extents[r.below(6)] = r.pick(&LIMITS),
                _ => s.extents[2 * axis + 1] = s.extents[2 * axis],
            }
            s
        }
    };
    let footprint = if r.once_in(64) { bad_footprint(r) } else { f as u8 };
    SymbolicCase::new(footprint, &s.to_numbers())
}

/// Limits of the depth and of the extents (02, h), each at every footprint and nothing else wrong: every depth of the grid, its sides from 6 on,
/// a grid larger than the footprint on one axis alone, every extent around its largest, and extents that are bad on one axis alone.
pub fn volume_limits(r: &mut Random) -> Vec<SymbolicCase> {
    let mut cases = Vec::new();
    for f in 0..ALL_FOOTPRINTS {
        let mut put = |s: SymbolicBlock| cases.push(SymbolicCase::new(f as u8, &s.to_numbers()));
        for _ in 0..8 {
            let s = mode_block(r, f);
            for depth in [0, 1, 2, 3, 4, 5, 6, 7, 8, 255, 256, 65535] {
                put(SymbolicBlock { depth, ..s });
            }
            for side in 5..14 {
                put(SymbolicBlock { width: side, ..s });
                put(SymbolicBlock { height: side, ..s });
            }
            for axis in 0..3 {
                let mut grid = [2; 3];
                grid[axis] = sides(f)[axis] as u16 + 1;
                let [width, height, depth] = grid;
                put(SymbolicBlock { width, height, depth, range: 0, planes: 1, plane_channel: 0, ..s });
            }
            let solid = void_extent(r, f);
            put(SymbolicBlock { depth: 1, ..solid });
            for place in 0..6 {
                for extent in [0, 1, 510, 511, 512, 8190, 8191, 8192, 65535] {
                    let mut s = solid;
                    s.extents[place] = extent;
                    put(s);
                }
            }
            for axis in 0..3 {
                let mut equal = solid;
                equal.extents = std::array::from_fn(|i| if i < 4 || is_volume(f) { 7 + i as u16 } else { 0 });
                equal.extents[2 * axis + 1] = equal.extents[2 * axis];
                put(equal);
            }
        }
    }
    cases
}

/// At every footprint and each place of the list one number above 255: an acceptable one with other high bits, or any.
pub fn above_255(r: &mut Random) -> Vec<SymbolicCase> {
    let mut cases = Vec::new();
    for f in 0..ALL_FOOTPRINTS {
        for place in 0..NUMBERS {
            for s in [mode_block(r, f), mode_block(r, f), hdr_mode_block(r, f), void_extent(r, f)] {
                for above in [256 * (1 + r.below(255)), 256, 1024, 8192, 256 + r.below(65280), 65535] {
                    let mut numbers = s.to_numbers();
                    numbers[place] = if above % 256 == 0 { numbers[place] % 256 + above as u16 } else { above as u16 };
                    cases.push(SymbolicCase::new(f as u8, &numbers));
                }
            }
        }
    }
    cases
}

/// A write call with wrong lengths, or with a right one and a refused footprint.
pub fn refused_lists(r: &mut Random) -> SymbolicCase {
    let mut case = symbolic(r);
    let reason = 1 + r.below(7);
    if reason & 1 != 0 {
        case.footprint = bad_footprint(r);
    }
    if reason & 2 != 0 {
        let len = other_length(r, NUMBERS);
        case.numbers.resize(len, 1);
    }
    if reason & 4 != 0 {
        case.block_len = other_length(r, 16);
    }
    case
}

/// A symbolic block that is refused by 20 alone: HDR, without its mark.
fn unmarked_block(r: &mut Random, footprint: usize) -> SymbolicBlock {
    loop {
        let s = settings(r, footprint, true);
        if refusal(footprint, &s) == 20 {
            return s;
        }
    }
}

/// Endpoint numbers and weights in use and their largest.
struct Used {
    endpoints: usize,
    endpoint_most: u16,
    weights: usize,
    weight_most: u16,
}

impl Used {
    /// Of an acceptable symbolic block.
    fn new(s: &SymbolicBlock) -> Used {
        if s.mark == 1 {
            return Used { endpoints: 0, endpoint_most: 0, weights: 0, weight_most: 0 };
        }
        Used {
            endpoints: s.modes[..s.partitions as usize].iter().map(|&m| 2 * (m as usize / 4 + 1)).sum(),
            endpoint_most: s.endpoint_most(),
            weights: s.weight_count(),
            weight_most: WEIGHT_RANGES[s.range as usize].most,
        }
    }
}

/// Changes one field or number.
fn spoil(r: &mut Random, s: &mut SymbolicBlock, used: &Used) {
    let limit = r.pick(&LIMITS);
    match r.below(27) {
        0 => s.mark = limit,
        1 => s.colours[r.below(4)] = limit,
        2 => s.extents[r.below(6)] = limit,
        3 => s.width = r.below(14) as u16,
        4 => s.height = r.below(14) as u16,
        5 => (s.width, s.height) = (2 + r.below(11) as u16, 2 + r.below(11) as u16),
        6 => s.range = r.below(13) as u16,
        7 => s.planes = r.below(4) as u16,
        8 => s.plane_channel = r.below(5) as u16,
        9 => s.partitions = r.below(6) as u16,
        10 => s.index = limit,
        11 => s.selector = r.below(5) as u16,
        12..15 => s.modes[r.below(4)] = r.below(17) as u16,
        15 => {
            let partitions = s.partitions.min(4) as usize;
            s.modes[..partitions].fill(r.below(16) as u16);
        }
        16 => s.endpoints[r.below(18)] = limit,
        17 => s.weights[r.below(64)] = limit,
        // The first unused one, and a used one just above its range.
        18 => s.endpoints[used.endpoints.min(17)] = 1,
        19 => s.weights[used.weights.min(63)] = 1,
        20 => s.endpoints[r.below(used.endpoints.max(1))] = used.endpoint_most + 1,
        21 => s.weights[r.below(used.weights.max(1))] = used.weight_most + 1,
        22 => s.hdr = r.pick(&[0, 1, 1 - s.hdr.min(1), limit]),
        23 => s.depth = r.below(8) as u16,
        24 => (s.width, s.height, s.depth) = (2 + r.below(6) as u16, 2 + r.below(6) as u16, 2 + r.below(6) as u16),
        _ => {
            let mut numbers = s.to_numbers();
            numbers[r.below(NUMBERS)] = limit;
            *s = SymbolicBlock::from_numbers(&numbers);
        }
    }
}

/// An image of small sides, some of its blocks faulty.
pub fn image(r: &mut Random) -> ImageCase {
    let f = flat_footprint(r);
    let side = |r: &mut Random| 1 + if r.once_in(3) { r.below(13) } else { r.below(40) } as u32;
    let (width, height) = (side(r), side(r));
    // From no faulty block to many; mostly few, so that every fault comes first now and then.
    let many = r.pick(&[0, 20, 5, 1]);
    image_of(r, f, width, height, many)
}

/// The blocks of a picture. One in `many` is of any sort (0: none), the others are without fault; in every other picture these may be HDR.
fn blocks_of(r: &mut Random, f: usize, size: [u32; 3], many: usize) -> Vec<u8> {
    let hdr = r.once_in(2);
    let mut blocks = Vec::new();
    for _ in 0..size.iter().zip(sides(f)).map(|(&side, block)| (side as usize).div_ceil(block)).product() {
        blocks.extend(if many > 0 && r.once_in(many) {
            any_block(r, f)
        } else {
            write(f, &if hdr { any_symbolic_block(r, f) } else { symbolic_block(r, f) }).unwrap()
        });
    }
    blocks
}

fn image_of(r: &mut Random, f: usize, width: u32, height: u32, many: usize) -> ImageCase {
    let blocks = blocks_of(r, f, [width, height, 1], many);
    ImageCase { footprint: f as u8, width, height, blocks, out_len: 4 * (width * height) as usize, tally_len: 3 }
}

fn volume_of(r: &mut Random, f: usize, size: [u32; 3], many: usize) -> VolumeCase {
    let blocks = blocks_of(r, f, size, many);
    let out_len = 4 * size.iter().map(|&side| side as usize).product::<usize>();
    VolumeCase { footprint: f as u8, size, blocks, out_len, tally_len: 3 }
}

/// A volume of small sides, some of its blocks faulty; one in four of a flat footprint.
pub fn volume(r: &mut Random) -> VolumeCase {
    let f = if r.once_in(4) { flat_footprint(r) } else { volume_footprint(r) };
    let size = [0; 3].map(|_| 1 + if r.once_in(3) { r.below(7) } else { r.below(14) } as u32);
    let many = r.pick(&[0, 20, 5, 1]);
    volume_of(r, f, size, many)
}

/// At every footprint volumes of one texel, of one block, with an edge block on each axis alone and on all, and with the largest side on each.
pub fn volume_edges(r: &mut Random) -> Vec<VolumeCase> {
    let mut cases = Vec::new();
    for f in 0..ALL_FOOTPRINTS {
        let block = sides(f).map(|side| side as u32);
        let mut sizes = vec![[1; 3], block, block.map(|side| side + 1), block.map(|side| 2 * side)];
        for (axis, largest) in [16384, 16384, 2048].into_iter().enumerate() {
            for (side, others) in [(block[axis] + 1, block), (largest, [1, 2, 1])] {
                let mut size = others;
                size[axis] = side;
                sizes.push(size);
            }
        }
        for size in sizes {
            cases.push(volume_of(r, f, size, 5));
        }
    }
    cases
}

/// A volume call that is refused; several reasons may hold at once.
pub fn refused_volume(r: &mut Random) -> VolumeCase {
    let mut case = volume(r);
    let reason = 1 + r.below(31);
    if reason & 1 != 0 {
        case.footprint = bad_footprint(r);
    }
    if reason & 2 != 0 {
        let axis = r.below(3);
        let above = if axis == 2 { 2049 } else { 16385 };
        case.size[axis] = r.pick(&[0, above, above + 1, 65536, 1 << 31, u32::MAX]);
        // Lengths that such a volume would have, where they are small enough to lend.
        let f = case.footprint as usize;
        let [w, h, d] = case.size.map(|side| side as usize);
        if f < ALL_FOOTPRINTS && w.saturating_mul(h).saturating_mul(d) < 1_000_000 && r.once_in(2) {
            let count: usize = [w, h, d].iter().zip(sides(f)).map(|(side, block)| side.div_ceil(block)).product();
            case.blocks.resize(16 * count, 0x42);
            case.out_len = 4 * w * h * d;
        }
    }
    if reason & 4 != 0 {
        let len = other_length(r, case.blocks.len());
        case.blocks.resize(len, 0x42);
    }
    if reason & 8 != 0 {
        case.out_len = other_length(r, case.out_len);
    }
    if reason & 16 != 0 {
        case.tally_len = other_length(r, 3);
    }
    case
}

/// Images with a side of 16,384, at every footprint.
pub fn edges(r: &mut Random) -> Vec<ImageCase> {
    let mut cases = Vec::new();
    for f in 0..FOOTPRINTS.len() {
        let other = 1 + r.below(20) as u32;
        let (width, height) = if r.once_in(2) { (16384, other) } else { (other, 16384) };
        cases.push(image_of(r, f, width, height, 200));
    }
    cases
}

/// 02, e: the panorama of the sports hall, 11,000 texels wide, at 6x6.
pub fn panorama(r: &mut Random) -> ImageCase {
    let f = FOOTPRINTS.iter().position(|&sides| sides == (6, 6)).unwrap();
    image_of(r, f, 11_000, 1_000, 200)
}

/// An image call that is refused; several reasons may hold at once.
pub fn refused_image(r: &mut Random) -> ImageCase {
    let mut case = image(r);
    let reason = 1 + r.below(31);
    if reason & 1 != 0 {
        case.footprint = bad_flat_footprint(r);
    }
    if reason & 2 != 0 {
        let side = r.pick(&[0, 16385, 16386, 65536, 1 << 31, u32::MAX]);
        if r.once_in(2) {
            case.width = side;
        } else {
            case.height = side;
        }
        // Lengths that such an image would have, where they are small enough to lend.
        if let (Some((w, h)), true) = (FOOTPRINTS.get(case.footprint as usize), r.once_in(2)) {
            let (width, height) = (case.width as usize, case.height as usize);
            let count = width.div_ceil(*w) * height.div_ceil(*h);
            if width * height < 1_000_000 {
                case.blocks.resize(16 * count, 0x42);
                case.out_len = 4 * width * height;
            }
        }
    }
    if reason & 4 != 0 {
        let len = other_length(r, case.blocks.len());
        case.blocks.resize(len, 0x42);
    }
    if reason & 8 != 0 {
        case.out_len = other_length(r, case.out_len);
    }
    if reason & 16 != 0 {
        case.tally_len = other_length(r, 3);
    }
    case
}

//! Volumes (02, h): samples worked out by hand from 000's tables, and the sheets' refusals.

use std::collections::BTreeMap;

use reference::random::{all_ones, one_partition, twin};
use reference::tables::{BLOCK_MODES, BlockMode, Grid, mode_number};
use reference::*;

const BLOCK_3X3X3: usize = 14;
const BLOCK_6X6X6: usize = 23;

/// Width, height, depth, range and planes of a 3D block mode.
fn grid(mode: usize) -> Option<[u8; 5]> {
    match BLOCK_MODES[1][mode] {
        BlockMode::Grid(g) => Some([g.width, g.height, g.depth, g.range, g.planes]),
        _ => None,
    }
}

/// Each row of 000's table, its fields all different.
#[test]
fn block_modes() {
    // DP P HH WW r0 DD r2 r1
    assert_eq!(grid(0b1_0_01_10_1_11_0_1), Some([4, 3, 5, 1, 2]));
    assert_eq!(grid(0b0_1_11_00_0_01_1_0), Some([2, 5, 3, 8, 1]));
    // HH 00 DD r0 r2 r1 00
    assert_eq!(grid(0b10_00_01_1_1_0_00), Some([6, 4, 3, 3, 1]));
    // DD 01 WW r0 r2 r1 00
    assert_eq!(grid(0b10_01_01_0_0_1_00), Some([3, 6, 4, 0, 1]));
    // HH 10 WW r0 r2 r1 00
    assert_eq!(grid(0b10_10_11_1_1_1_00), Some([5, 4, 6, 5, 1]));
    // DP P 11 00, 01, 10 r0 r2 r1 00
    assert_eq!(grid(0b1_1_1100_0_1_1_00), Some([6, 2, 2, 10, 2]));
    assert_eq!(grid(0b0_1_1101_0_1_1_00), Some([2, 6, 2, 10, 1]));
    assert_eq!(grid(0b1_0_1110_0_1_1_00), Some([2, 2, 6, 4, 2]));
    for high in 0..4 {
        assert_eq!(BLOCK_MODES[1][high << 9 | 0b1111_111_00], BlockMode::VoidExtent);
        assert_eq!(BLOCK_MODES[1][high << 9 | 0b1111_110_00], BlockMode::Reserved);
        assert_eq!(BLOCK_MODES[1][high << 9 | 0b1100_100_00], BlockMode::Reserved);
    }
}

/// Every mode's grid has a smallest mode; exactly the settings that 02 names have a second one.
#[test]
fn two_modes() {
    let mut modes: BTreeMap<[u8; 5], Vec<usize>> = BTreeMap::new();
    for mode in 0..2048 {
        if let Some(grid) = grid(mode) {
            modes.entry(grid).or_default().push(mode);
        }
    }
    for (&[w, h, d, range, planes], modes) in &modes {
        let sides = [w, h, d].map(usize::from);
        assert_eq!(mode_number(sides, range as usize, planes as usize), Some(modes[0] as u16));
        let mut sorted = sides;
        sorted.sort();
        let double = sorted == [2, 2, 6] && planes == 1 && range < 6;
        assert_eq!(modes.len(), 1 + double as usize);
    }
    assert_eq!(modes.values().filter(|modes| modes.len() == 2).count(), 18);
    let all: usize = (2..13)
        .flat_map(|w| (2..13).map(move |h| (w, h)))
        .map(|(w, h)| {
            let found = |d, range, planes| mode_number([w, h, d], range, planes).is_some() as usize;
            (2..7)
                .flat_map(|d| (0..12).map(move |r| (d, r)))
                .map(|(d, r)| found(d, r, 1) + found(d, r, 2))
                .sum::<usize>()
        })
        .sum();
    assert_eq!(all, modes.len());
}

/// A block of either mode reads as the same, the writer takes the smaller, and the strict reading tells 21 of the larger.
#[test]
fn the_smaller_mode() {
    for (range, turn) in (0..6).flat_map(|range| (0..3).map(move |turn| (range, turn))) {
        let mut sides = [2; 3];
        sides[turn] = 6;
        let [width, height, depth] = sides;
        let s = one_partition(Grid { width, height, depth, range, planes: 1 });
        let written = write(BLOCK_6X6X6, &s).unwrap();
        let other = twin(BLOCK_6X6X6, written).unwrap();
        assert!(u128::from_le_bytes(written) & 2047 < u128::from_le_bytes(other) & 2047);
        assert_eq!(twin(BLOCK_6X6X6, other), Some(written));
        assert_eq!(read(BLOCK_6X6X6, &other), Ok(s));
        for kind in Kind::ALL {
            assert_eq!(strict_fault(BLOCK_6X6X6, kind, &written), 0);
            assert_eq!((fault(BLOCK_6X6X6, kind, &other), strict_fault(BLOCK_6X6X6, kind, &other)), (0, 21));
        }
        assert_eq!(canonical(BLOCK_6X6X6, &other), Some(written));
        // a high range, and two planes: one mode
        for (range, planes) in [(6, 1), (7, 1), (8, 1), (0, 2), (1, 2)] {
            let one = write(BLOCK_6X6X6, &SymbolicBlock { range, planes, ..s }).unwrap();
            assert_eq!(twin(BLOCK_6X6X6, one), None);
        }
    }
}

/// A void extent with these extents, low s first.
fn solid(extents: [u128; 6], hdr: bool) -> [u8; 16] {
    let mut block = 0x1FC | (hdr as u128) << 9 | 0x0807_0605_0403_0201 << 64;
    for (i, extent) in extents.into_iter().enumerate() {
        block |= extent << (10 + 9 * i);
    }
    block.to_le_bytes()
}

/// 000's layout: no fixed bits, six extents of nine bits from bit 10.
#[test]
fn void_extents() {
    let sound = [1, 2, 3, 300, 0, 511];
    let block = solid(sound, false);
    assert_eq!(block[..8], [0xFC, 0x05, 0x10, 0x30, 0x80, 0x25, 0x80, 0xFF]);
    for footprint in BLOCK_3X3X3..=BLOCK_6X6X6 {
        let s = read(footprint, &block).unwrap();
        assert_eq!((s.mark, s.hdr, s.depth), (1, 0, 0));
        assert_eq!((s.extents, s.colours), ([1, 2, 3, 300, 0, 511], [0x0201, 0x0403, 0x0605, 0x0807]));
        assert_eq!(write(footprint, &s), Ok(block));
        assert_eq!(fault(footprint, Kind::Srgb8, &solid([511; 6], false)), 0);
        for kind in Kind::ALL {
            assert_eq!(fault(footprint, kind, &solid(sound, true)), if kind.takes_hdr() { 0 } else { 13 });
        }
        // low and high equal, and exchanged, on each axis; 12 comes before 13
        for (axis, hdr) in [(0, false), (1, false), (2, false), (0, true), (1, true), (2, true)] {
            let mut equal = sound;
            equal[2 * axis] = equal[2 * axis + 1];
            assert_eq!(fault(footprint, Kind::Unorm16, &solid(equal, hdr)), 12);
            let mut turned = sound;
            turned.swap(2 * axis, 2 * axis + 1);
            assert_eq!(fault(footprint, Kind::Unorm16, &solid(turned, hdr)), 12);
            let mut nearly = [511; 6];
            nearly[2 * axis] = 510;
            assert_eq!(fault(footprint, Kind::Unorm16, &solid(nearly, hdr)), 12);
        }
        let mut out = vec![0; 4 * texels(footprint)];
        assert_eq!(decode(footprint, Kind::Unorm16, &block, &mut out), 0);
        assert!(out.chunks(4).all(|t| t == [0x0201, 0x0403, 0x0605, 0x0807]));
        assert_eq!(decode(footprint, Kind::Srgb8, &solid(sound, true), &mut out), 13);
        assert!(out.chunks(4).all(|t| t == [255, 0, 255, 255]));
    }
}

/// An all-one block has two planes of 5x5x5; an all-zero one is reserved.
#[test]
fn faults() {
    for (footprint, &[_, h, d]) in (14..).zip(&VOLUMES) {
        for kind in Kind::ALL {
            assert_eq!(fault(footprint, kind, &[0; 16]), 11);
            assert_eq!(fault(footprint, kind, &[255; 16]), if h < 5 || d < 5 { 14 } else { 15 });
        }
    }
    // one axis too large alone: 5x4x4 against grids of 6x2x2, 2x5x2, 2x2x5
    for (sides, number) in [([5, 4, 2], 0), ([6, 2, 2], 14), ([2, 5, 3], 14), ([2, 3, 5], 14), ([2, 4, 4], 0)] {
        let [width, height, depth] = sides;
        let s = one_partition(Grid { width, height, depth, range: 0, planes: 1 });
        assert_eq!(refusal(18, &s), number, "{sides:?}");
        let block = write(BLOCK_6X6X6, &s).unwrap();
        assert_eq!(fault(18, Kind::Unorm16, &block), number, "{sides:?}");
    }
}

/// A sheet's depth, and its extents.
#[test]
fn sheets() {
    let flat = one_partition(Grid { width: 4, height: 4, depth: 1, range: 2, planes: 1 });
    let deep = one_partition(Grid { width: 3, height: 3, depth: 3, range: 1, planes: 1 });
    assert_eq!((refusal(0, &flat), refusal(BLOCK_3X3X3, &deep)), (0, 0));
    for depth in [0, 1, 2, 3, 6, 7, 65535] {
        assert_eq!(refusal(0, &SymbolicBlock { depth, ..flat }), if depth == 1 { 0 } else { 31 });
        let expected = match depth {
            2 | 3 => 0,
            6 => 14,
            _ => 31,
        };
        assert_eq!(refusal(BLOCK_3X3X3, &SymbolicBlock { depth, ..deep }), expected);
    }
    // no 3D block mode is wider or higher than 6: 32 where 31 would begin at 13
    for side in 7..=12 {
        assert_eq!(refusal(BLOCK_6X6X6, &SymbolicBlock { width: side, ..deep }), 32);
        assert_eq!(refusal(BLOCK_6X6X6, &SymbolicBlock { height: side, ..deep }), 32);
    }
    assert_eq!(refusal(BLOCK_6X6X6, &SymbolicBlock { width: 13, ..deep }), 31);
    // two sides of 6, or 6 with two planes, which only 6x2x2 has
    assert_eq!(refusal(BLOCK_6X6X6, &SymbolicBlock { width: 6, height: 6, ..deep }), 32);
    assert_eq!(refusal(BLOCK_6X6X6, &SymbolicBlock { width: 6, planes: 2, ..deep }), 32);
    assert_eq!(refusal(BLOCK_6X6X6, &SymbolicBlock { width: 6, range: 6, ..deep }), 32);
    assert_eq!(refusal(BLOCK_6X6X6, &SymbolicBlock { width: 6, height: 2, depth: 2, planes: 2, range: 0, ..deep }), 0);
    assert_eq!(refusal(BLOCK_6X6X6, &SymbolicBlock { extents: [0, 0, 0, 0, 0, 1], ..deep }), 31);
    assert_eq!(refusal(0, &SymbolicBlock { extents: [0, 0, 0, 0, 1, 0], ..flat }), 31);

    let solid = |footprint, extents| refusal(footprint, &SymbolicBlock { mark: 1, extents, ..SymbolicBlock::ZERO });
    assert_eq!((all_ones(0), all_ones(14)), ([8191, 8191, 8191, 8191, 0, 0], [511; 6]));
    assert_eq!(solid(0, all_ones(0)), 0);
    assert_eq!(solid(0, [0, 1, 0, 1, 0, 1]), 31);
    assert_eq!(solid(0, [511; 6]), 31);
    assert_eq!(solid(0, [511, 511, 511, 511, 0, 0]), 12);
    for footprint in BLOCK_3X3X3..=BLOCK_6X6X6 {
        assert_eq!(solid(footprint, [511; 6]), 0);
        assert_eq!(solid(footprint, [0, 1, 510, 511, 7, 8]), 0);
        assert_eq!(solid(footprint, [0, 1, 0, 1, 0, 0]), 12);
        for place in 0..6 {
            let mut extents = [511; 6];
            extents[place] = 512;
            assert_eq!(solid(footprint, extents), 31);
            extents[place] = 510;
            assert_eq!(solid(footprint, extents), 12);
        }
        let deep = SymbolicBlock { mark: 1, extents: [511; 6], depth: 1, ..SymbolicBlock::ZERO };
        assert_eq!(refusal(footprint, &deep), 31);
    }
    assert_eq!(refusal(24, &deep), 1);
}

/// The C calls' list: depth and the third pair of extents stand last.
#[test]
fn list_of_numbers() {
    let mut s = SymbolicBlock { depth: 5, hdr: 1, ..SymbolicBlock::ZERO };
    s.extents = [11, 12, 13, 14, 15, 16];
    let numbers = s.to_numbers();
    assert_eq!(numbers[5..9], [11, 12, 13, 14]);
    assert_eq!(numbers[103..], [1, 5, 15, 16]);
    let count: [u16; NUMBERS] = std::array::from_fn(|i| i as u16);
    assert_eq!(SymbolicBlock::from_numbers(&count).to_numbers(), count);
}

/// 4x4x4 with a grid of 2x2x2, the least that has 24 bits; weights 0 but for one corner, and the texel in the middle of the block's edges: the walk
/// by hand. Places 0 to 3 on an axis are 0, 5, 11, 16 sixteenths.
#[test]
fn simplex_by_hand() {
    let mut s = one_partition(Grid { width: 2, height: 2, depth: 2, range: 5, planes: 1 });
    assert_eq!(refusal(17, &s), 0);
    // grey 0 to 255; the corner at the end of x and y, at the start of z, has weight 64
    s.endpoints[1] = 255;
    s.weights[3] = 7;
    let grey = |place| picture(17, Kind::Srgb8, &s, place)[0];
    let level = |sixteenths: u32| {
        let i = (64 * sixteenths + 8) >> 4;
        ((128 * (64 - i) + (256 * 255 + 128) * i + 32) / 64 >> 8) as u16
    };
    // only where x and y come before z the walk passes it: by the lesser of x and y, less z
    assert_eq!(grey([3, 3, 0]), 255);
    assert_eq!(grey([1, 3, 0]), level(5));
    assert_eq!(grey([2, 2, 1]), level(11 - 5));
    assert_eq!(grey([3, 2, 1]), level(11 - 5));
    assert_eq!(grey([1, 2, 2]), level(0));
    assert_eq!(grey([2, 2, 2]), level(0));
    assert_eq!(grey([0, 3, 0]), level(0));
}

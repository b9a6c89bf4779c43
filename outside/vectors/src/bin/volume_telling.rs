//! Writes the blocks of make_volume_runs to standard output, 18 bytes each: footprint, fault in kinds 0 and 1 (0 for none), block. Each row of the 3D
//! mode table and both modes of three settings that have two; simplex infill in each of its six orders and with ties, at every volume footprint; two
//! to four partitions with either shift of z in the hash, at 3x3x3 and at larger ones; two planes with each channel; solid blocks, LDR and
//! HDR; HDR endpoint modes, LDR partitions beside them; and each fault, in a block made by hand to have it.

use std::collections::BTreeSet;
use std::io::Write;

use reference::random::twin;
use reference::{Kind, SymbolicBlock, fault, sides, write};
use vectors::sheet::sheet;
use vectors::volume::PLACES;

/// Two colours as mode 8 takes them.
const SIX: [u16; 6] = [10, 120, 140, 20, 30, 150];

/// One plane, one partition of mode 8; of mode 0 where the weights leave no room for six endpoint numbers.
fn plain(grid: [u8; 3], range: u8) -> SymbolicBlock {
    let s = sheet(grid, range, 1, 0, 1, 0, 0, &[3, 60]);
    if s.weight_bits() > 80 { s } else { scaled(sheet(grid, range, 1, 0, 1, 0, 8, &SIX)) }
}

/// The endpoint numbers within the range that is left for them.
fn scaled(s: SymbolicBlock) -> SymbolicBlock {
    let most = s.endpoint_most();
    SymbolicBlock { endpoints: s.endpoints.map(|n| n % (most + 1)), ..s }
}

/// Which of the six orders of fractions a place has, where no two are equal.
fn order(footprint: usize, grid: [u16; 3], place: [usize; 3]) -> Option<[bool; 3]> {
    let sides = sides(footprint);
    let [fs, ft, fr] = std::array::from_fn(|a| {
        let scale = (1024 + sides[a] / 2) / (sides[a] - 1);
        ((scale * place[a] * (grid[a] as usize - 1) + 32) >> 6) & 15
    });
    (fs != ft && ft != fr && fs != fr).then_some([fs > ft, ft > fr, fs > fr])
}

fn sound() -> Vec<(usize, [u8; 16])> {
    let mut sheets = Vec::new();
    // each footprint with a smaller grid, two with a whole one, and the rows of the table with a side of 6
    for (footprint, grid, range) in [
        (14, [2, 2, 2], 5),
        (15, [3, 2, 2], 2),
        (16, [3, 3, 2], 2),
        (17, [3, 2, 3], 4),
        (18, [4, 3, 2], 2),
        (19, [3, 4, 3], 1),
        (20, [4, 4, 3], 0),
        (21, [5, 2, 4], 1),
        (22, [2, 5, 4], 0),
        (23, [4, 4, 4], 0),
        (23, [2, 3, 4], 6),
        (23, [5, 3, 2], 4),
        (14, [3, 3, 3], 1),
        (17, [4, 4, 4], 0),
        (23, [6, 3, 2], 2),
        (23, [4, 6, 2], 1),
        (23, [2, 3, 6], 3),
        (21, [6, 2, 2], 8),
        (22, [2, 6, 2], 6),
        (23, [2, 2, 6], 7),
    ] {
        sheets.push((footprint, plain(grid, range)));
    }
    for (footprint, grid, range, channel) in [(21, [6, 2, 2], 0, 0), (22, [2, 6, 2], 1, 1), (23, [2, 2, 6], 0, 2)] {
        sheets.push((footprint, scaled(sheet(grid, range, 2, channel, 1, 0, 8, &SIX))));
    }
    let mut orders = BTreeSet::new();
    for (footprint, s) in &sheets {
        orders.extend(PLACES.iter().filter_map(|&place| order(*footprint, [s.width, s.height, s.depth], place)));
    }
    assert_eq!(orders.len(), 6);

    for channel in 0..4 {
        let eight = [10, 150, 20, 140, 130, 20, 40, 155];
        sheets.push((20, scaled(sheet([2, 3, 2], 2, 2, channel, 1, 0, 12, &eight))));
    }
    for (footprint, index) in [(14, 55), (14, 39), (23, 902), (23, 914), (18, 39)] {
        for partitions in 2..=4 {
            let endpoints: Vec<u16> = (0..2 * partitions).map(|k| 10 + 30 * k).collect();
            sheets.push((footprint, sheet([3, 2, 2], 2, 1, 0, partitions, index, 0, &endpoints)));
        }
    }
    sheets.push((23, scaled(sheet([3, 2, 2], 1, 2, 1, 3, 914, 0, &[3, 60, 90, 9, 140, 200]))));
    sheets.push((17, sheet([3, 3, 2], 1, 1, 0, 1, 0, 5, &[100, 100, 200, 118])));
    sheets.push((17, sheet([2, 3, 3], 1, 1, 0, 1, 0, 13, &[100, 100, 120, 118, 250, 10, 90, 100])));
    let solid = SymbolicBlock { mark: 1, extents: [511; 6], ..SymbolicBlock::ZERO };
    sheets.push((14, SymbolicBlock { colours: [0, 1, 21504, 65535], ..solid }));
    sheets.push((19, SymbolicBlock { colours: [4, 2047, 65504, 65534], extents: [0, 1, 510, 511, 255, 256], ..solid }));

    let mut blocks: Vec<_> = sheets.iter().map(|(f, s)| (*f, write(*f, s).expect("acceptable"))).collect();
    for (footprint, grid, range) in [(21, [6, 2, 2], 2), (22, [2, 6, 2], 1), (23, [2, 2, 6], 4)] {
        let block = write(footprint, &plain(grid, range)).expect("acceptable");
        blocks.extend([(footprint, block), (footprint, twin(footprint, block).expect("two modes"))]);
    }
    blocks
}

/// HDR blocks and their faults in kinds 0 and 1.
fn hdr() -> Vec<(usize, u8, [u8; 16])> {
    let six = [0xB5, 0xAD, 0x55, 0x2A, 0x53, 0xAC];
    let mut sheets = vec![
        (14, 20, sheet([2, 2, 2], 5, 1, 0, 1, 0, 2, &[37, 201])),
        (17, 20, sheet([3, 2, 3], 2, 1, 0, 1, 0, 7, &[0x2D, 0x55, 0x6A, 0xB3])),
        (20, 20, sheet([3, 3, 2], 2, 1, 0, 1, 0, 11, &six)),
        (23, 20, sheet([2, 3, 2], 1, 2, 3, 1, 0, 15, &[six.as_slice(), &[0x25, 0x4C]].concat())),
    ];
    // LDR partitions beside HDR ones
    for (footprint, modes) in [(14, [0, 2, 0, 0]), (23, [2, 0, 3, 1])] {
        let partitions = if modes[2] == 0 { 2 } else { 4 };
        let mut s =
            sheet([3, 2, 2], 2, 1, 0, partitions, 55, 0, &[3, 60, 90, 9, 40, 14, 20, 77][..2 * partitions as usize]);
        (s.selector, s.modes, s.hdr) = (1, modes, 1);
        sheets.push((footprint, 20, scaled(s)));
    }
    let solid = SymbolicBlock { mark: 1, hdr: 1, extents: [511; 6], ..SymbolicBlock::ZERO };
    sheets.push((15, 13, SymbolicBlock { colours: [0x3C00, 0x7BFF, 0x7C00, 0xC123], ..solid }));
    sheets.push((
        22,
        13,
        SymbolicBlock { colours: [0x7C01, 0xFDFF, 0x7E00, 0xFFFF], extents: [1, 2, 3, 4, 5, 6], ..solid },
    ));
    sheets.into_iter().map(|(f, number, s)| (f, number, write(f, &s).expect("acceptable"))).collect()
}

/// 000's first row of 3D block modes: two planes, high precision, sides, rho.
fn mode(planes: u128, high: u128, [w, h, d]: [u128; 3], rho: u128) -> u128 {
    (planes - 1) << 10 | high << 9 | (h - 2) << 7 | (w - 2) << 5 | (rho & 1) << 4 | (d - 2) << 2 | rho >> 1
}

fn solid(extents: [u128; 6]) -> u128 {
    extents.iter().enumerate().fold(0x1FC, |block, (i, extent)| block | extent << (10 + 9 * i))
}

/// Footprint, the first row of 01's table that holds, and the block.
fn faulty() -> Vec<(usize, u8, u128)> {
    vec![
        (14, 11, 0),
        (23, 11, 0b00_1111_101_00),
        (17, 12, solid([2, 2, 3, 4, 5, 6])),
        (17, 12, solid([1, 2, 4, 3, 5, 6])),
        (17, 12, solid([1, 2, 3, 4, 6, 6])),
        (23, 12, solid([511, 511, 511, 511, 511, 510])),
        (14, 14, mode(1, 0, [4, 3, 3], 2)),
        (14, 14, mode(1, 0, [3, 4, 3], 2)),
        (14, 14, mode(1, 0, [3, 3, 4], 2)),
        (23, 15, mode(1, 0, [5, 5, 5], 2)),
        (15, 15, mode(2, 0, [4, 3, 3], 2)),
        // eight weights of one bit; 64 of two
        (14, 16, mode(1, 0, [2, 2, 2], 2)),
        (17, 16, mode(1, 0, [4, 4, 4], 4)),
        // four partitions
        (20, 17, mode(2, 0, [2, 2, 3], 4) | 3 << 11),
        // four of mode 12: 32 numbers
        (20, 18, mode(1, 0, [3, 2, 2], 4) | 3 << 11 | 12 << 25),
        // 96 bits of weights leave 15, where six numbers of mode 8 take 16
        (16, 19, mode(1, 0, [4, 4, 3], 4) | 8 << 13),
    ]
}

fn main() {
    let sound = sound().into_iter().map(|(f, block)| (f, 0, block));
    let faulty = faulty().into_iter().map(|(f, number, block)| (f, number, block.to_le_bytes()));
    let mut out = std::io::stdout().lock();
    for (footprint, number, block) in sound.chain(hdr()).chain(faulty) {
        assert_eq!(fault(footprint, Kind::Srgb8, &block), number, "{block:02X?} at {:?}", sides(footprint));
        out.write_all(&[footprint as u8, number]).unwrap();
        out.write_all(&block).unwrap();
    }
}

//! Writes the blocks of crates/texel_runs to standard output, 17 bytes each (footprint, block): each LDR endpoint mode with both signs and
//! the tie, infill from small and non-square grids, two planes with each channel, two to four partitions at a small and a large footprint;
//! each HDR endpoint mode with every bit mode, major component and alpha mode, LDR partitions beside HDR ones, two planes, solid blocks with
//! infinities and NaN; and two blocks with a fault.

use reference::random::all_ones;
use reference::{FOOTPRINTS, SymbolicBlock, refusal, write};
use std::io::Write;
use vectors::sheet::sheet;

/// HDR blocks, endpoint numbers 0..255 where they choose a bit mode.
fn hdr() -> Vec<(usize, SymbolicBlock)> {
    let mut all = Vec::new();
    let mut four = |mode, endpoints: &[u16]| all.push((0, sheet([4, 4, 1], 2, 1, 0, 1, 0, mode, endpoints)));
    four(2, &[37, 201]);
    four(2, &[201, 37]);
    four(2, &[90, 90]);
    four(2, &[0, 255]);
    four(3, &[0x25, 0x9A]);
    four(3, &[0xA5, 0x9A]);
    four(3, &[0xFF, 0xFF]);
    // all extra bits set once and clear once over the modes; red less green, blue and scale below 0 and above
    for k in 0..16 {
        let bit = |i: u16| (k >> i & 1) << 7;
        let low = [[0x2D, 0x55, 0x6A, 0xB3], [0x35, 0x2A, 0x11, 0x49], [0x08, 0x7F, 0x03, 0xFF]][k as usize % 3];
        four(7, &[(k & 3) << 6 | low[0], bit(2) | low[1], bit(3) | low[2], low[3]]);
    }
    for k in 0..32 {
        let bit = |i: u16| (k >> i & 1) << 7;
        let low = [
            [0xB5, 0x2D, 0x55, 0x2A, 0x53, 0x2C],
            [0x6A, 0x52, 0x2B, 0x75, 0x2C, 0x71],
            [0xF1, 0x46, 0x63, 0x58, 0x6F, 0x15],
        ];
        let low = low[k as usize % 3];
        four(11, &[low[0], bit(0) | low[1], bit(1) | low[2], bit(2) | low[3], bit(3) | low[4], bit(4) | low[5]]);
    }
    let six = [0xB5, 0xAD, 0x55, 0x2A, 0x53, 0xAC];
    let eight = |six: [u16; 6], a0: u16, a1: u16| [six[0], six[1], six[2], six[3], six[4], six[5], a0, a1];
    four(14, &eight(six, 7, 255));
    four(14, &eight([0x35, 0x4D, 0xD5, 0x2A, 0xC3, 0xA4], 200, 30));
    // each alpha mode with both signs of the offset, and the clamps
    for [a0, a1] in [
        [0x25, 0x4C],
        [0x25, 0x6C],
        [0xA5, 0x5C],
        [0xA5, 0x2C],
        [0x25, 0xF3],
        [0x25, 0xCB],
        [0xA5, 0x9C],
        [0x7F, 0x5F],
        [0x05, 0x20],
    ] {
        four(15, &eight(six, a0, a1));
    }
    for channel in 0..4 {
        all.push((4, sheet([4, 4, 1], 0, 2, channel, 1, 0, 15, &eight(six, 0x25, 0x4C))));
    }
    all.push((4, sheet([4, 4, 1], 0, 2, 3, 1, 0, 14, &eight(six, 7, 255))));
    for (footprint, grid) in [(13, (5, 4)), (13, (2, 9)), (3, (3, 5)), (12, (7, 6))] {
        let range = if grid.0 * grid.1 > 40 { 0 } else { 2 };
        all.push((footprint, sheet([grid.0, grid.1, 1], range, 1, 0, 1, 0, 11, &six)));
    }
    // LDR partitions beside HDR ones, by selectors 1 and 3; several partitions with one HDR mode
    for (footprint, selector, index, modes) in [
        (0, 1, 37, [0, 2, 3, 0]),
        (13, 1, 515, [2, 0, 3, 1]),
        (13, 2, 37, [7, 8, 0, 0]),
        (6, 3, 77, [15, 8, 0, 0]),
        (6, 3, 78, [10, 14, 0, 0]),
    ] {
        let partitions = if modes[2] == 0 {
            2
        } else if modes[3] == 0 {
            3
        } else {
            4
        };
        let mut s = sheet([4, 4, 1], 1, 1, 0, partitions, index, 0, &[]);
        (s.selector, s.modes, s.hdr) = (selector, modes, 1);
        let used: usize = modes[..partitions as usize].iter().map(|m| 2 * (*m as usize / 4 + 1)).sum();
        for i in 0..used {
            s.endpoints[i] = (7 * i as u16 + 3) % (s.endpoint_most() + 1);
        }
        all.push((footprint, s));
    }
    all.push((13, sheet([4, 4, 1], 1, 1, 0, 3, 900, 2, &[3, 20, 30, 9, 14, 14])));
    let solid = SymbolicBlock { mark: 1, extents: all_ones(0), ..SymbolicBlock::ZERO };
    for (hdr, colours) in [(0, [0, 1, 2, 3]), (0, [4, 5, 2047, 2049]), (0, [21504, 65504, 65534, 65535])] {
        all.push((1, SymbolicBlock { hdr, colours, ..solid }));
    }
    for colours in
        [[0x3C00, 0x7BFF, 0x0001, 0x8000], [0x7C00, 0xFC00, 0x7C01, 0xFDFF], [0x7E00, 0xFFFF, 0x7FFF, 0xC123]]
    {
        all.push((1, SymbolicBlock { hdr: 1, colours, ..solid }));
    }
    all
}

fn main() {
    let mut all: Vec<(usize, SymbolicBlock)> = Vec::new();
    let four = |mode, endpoints: &[u16]| (0, sheet([4, 4, 1], 2, 1, 0, 1, 0, mode, endpoints));
    // 100 and 118 are offsets -14 and -5, 20 and 10 are 10 and 5
    all.extend([
        four(0, &[37, 201]),
        four(1, &[77, 200]),
        four(1, &[250, 255]),
        four(4, &[10, 200, 50, 220]),
        four(5, &[100, 20, 40, 10]),
        four(5, &[100, 100, 200, 118]),
        four(6, &[200, 100, 50, 128]),
        four(8, &[10, 200, 20, 210, 30, 220]),
        four(8, &[200, 10, 210, 20, 220, 30]),
        four(8, &[10, 30, 50, 30, 20, 20]),
        four(9, &[100, 20, 120, 10, 60, 10]),
        four(9, &[100, 100, 120, 118, 250, 10]),
        four(9, &[100, 10, 120, 118, 60, 0]),
        four(10, &[200, 100, 50, 128, 30, 220]),
        four(12, &[10, 200, 20, 210, 30, 220, 40, 250]),
        four(12, &[200, 10, 210, 20, 220, 30, 250, 40]),
        four(12, &[10, 30, 50, 30, 20, 20, 7, 99]),
        four(13, &[100, 20, 120, 10, 60, 10, 90, 20]),
        four(13, &[100, 100, 120, 118, 250, 10, 90, 100]),
        four(13, &[100, 10, 120, 118, 60, 0, 90, 118]),
    ]);
    let mode8 = [10, 120, 140, 20, 30, 150];
    for (footprint, grid) in
        [(13, (5, 4)), (13, (12, 5)), (13, (2, 9)), (3, (3, 5)), (3, (6, 2)), (12, (7, 6)), (9, (4, 3)), (7, (8, 8))]
    {
        let range = if grid.0 * grid.1 > 40 { 0 } else { 2 };
        all.push((footprint, sheet([grid.0, grid.1, 1], range, 1, 0, 1, 0, 8, &mode8)));
    }
    for channel in 0..4 {
        all.push((4, sheet([4, 4, 1], 0, 2, channel, 1, 0, 12, &[10, 200, 20, 210, 230, 20, 40, 250])));
    }
    for (footprint, index) in [(0, 37), (0, 900), (13, 37), (13, 515), (6, 77)] {
        for partitions in 2..=4 {
            let endpoints: Vec<u16> = (0..2 * partitions).map(|k| 3 + 4 * k).collect();
            all.push((footprint, sheet([4, 4, 1], 1, 1, 0, partitions, index, 0, &endpoints)));
        }
    }
    all.extend(hdr());
    let mut out = std::io::stdout().lock();
    for (footprint, s) in &all {
        assert_eq!(refusal(*footprint, s), 0, "{:?} at {:?}", s.to_numbers(), FOOTPRINTS[*footprint]);
        out.write_all(&[*footprint as u8]).unwrap();
        out.write_all(&write(*footprint, s).unwrap()).unwrap();
    }
    // 01: all-zero block 11, all-one block 14 at 4x4
    for byte in [0, 255] {
        out.write_all(&[0]).unwrap();
        out.write_all(&[byte; 16]).unwrap();
    }
}

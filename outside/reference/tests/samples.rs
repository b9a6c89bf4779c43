//! 01's bench samples and the program's block.

use reference::tables::{
    BLOCK_MODES, BlockMode, ENDPOINT_RANGES, ENDPOINTS, Grid, QUINTS, TRITS, WEIGHTS, mode_number,
};
use reference::*;

fn hex(text: &str) -> [u8; 16] {
    let bytes: Vec<u8> = text.split_whitespace().map(|b| u8::from_str_radix(b, 16).unwrap()).collect();
    bytes.try_into().unwrap()
}

/// 4x4, one partition, mode 0 with the grid and range of block mode 0x042.
fn program_block() -> [u8; 16] {
    hex("42 00 00 FE 01 00 00 00 00 00 00 00 00 00 00 80")
}

#[test]
fn codes() {
    assert_eq!(TRITS[0], [0, 0, 0, 0, 0]);
    assert_eq!(TRITS[28], [0, 0, 0, 2, 2]);
    assert_eq!(TRITS[255], [2, 1, 2, 2, 2]);
    assert_eq!(TRITS[11], [2, 0, 2, 0, 0]);
    assert_eq!(TRITS[15], [2, 0, 2, 0, 0]);
    assert_eq!(QUINTS[5], [0, 4, 0]);
    assert_eq!(QUINTS[6], [4, 4, 0]);
    assert_eq!(QUINTS[7], [4, 4, 4]);
    assert_eq!(QUINTS[127], [1, 3, 4]);
    assert!(TRITS.iter().flatten().all(|&d| d < 3));
    assert!(QUINTS.iter().flatten().all(|&d| d < 5));
}

#[test]
fn unquantised() {
    assert_eq!(WEIGHTS[4][3], 52);
    assert_eq!(ENDPOINTS[0][2], 51);
    assert_eq!(ENDPOINT_RANGES[3].most, 11);
    assert_eq!(ENDPOINTS[3][2], 69);
    let reach: Vec<u16> = ENDPOINT_RANGES.iter().map(|e| e.most).collect();
    assert_eq!(reach, [5, 7, 9, 11, 15, 19, 23, 31, 39, 47, 63, 79, 95, 127, 159, 191, 255]);
}

#[test]
fn program() {
    let mut out = [0; 64];
    assert_eq!(decode(0, Kind::Srgb8, &program_block(), &mut out), 0);
    assert_eq!(out[..4], [84, 84, 84, 255]);
    for texel in out[4..].chunks(4) {
        assert_eq!(texel, [0, 0, 0, 255]);
    }
    assert_eq!(decode(0, Kind::Unorm16, &program_block(), &mut out), 0);
    assert_eq!(out[..4], [21504, 21504, 21504, 65535]);
}

#[test]
fn faults() {
    for kind in Kind::ALL {
        assert_eq!(fault(0, kind, &[0; 16]), 11);
        assert_eq!(fault(0, kind, &[255; 16]), 14);
        assert_eq!(fault(2, kind, &[255; 16]), 16);
    }
    let solid = "FF FF FF FF FF FF 01 02 03 04 05 06 07 08";
    for footprint in 0..14 {
        for kind in Kind::ALL {
            assert_eq!(fault(footprint, kind, &hex(&format!("FC FD {solid}"))), 0);
            assert_eq!(fault(footprint, kind, &hex(&format!("FC FF {solid}"))), if kind.takes_hdr() { 0 } else { 13 });
            assert_eq!(fault(footprint, kind, &hex(&format!("FC F9 {solid}"))), 12);
            assert_eq!(fault(footprint, kind, &hex(&format!("FC FB {solid}"))), 12);
        }
    }
    let mut out = [0; 64];
    assert_eq!(decode(0, Kind::Unorm16, &hex(&format!("FC FD {solid}")), &mut out), 0);
    assert_eq!(out[..4], [0x0201, 0x0403, 0x0605, 0x0807]);
    assert_eq!(decode(0, Kind::Srgb8, &hex(&format!("FC FD {solid}")), &mut out), 0);
    assert_eq!(out[60..], [2, 4, 6, 8]);
    assert_eq!(decode(0, Kind::Unorm16, &[0; 16], &mut out), 11);
    assert_eq!(out[60..], [65535, 0, 65535, 65535]);
    assert_eq!(decode(0, Kind::Srgb8, &[0; 16], &mut out), 11);
    assert_eq!(out[..4], [255, 0, 255, 255]);
    assert_eq!(decode(0, Kind::Float16, &[0; 16], &mut out), 11);
    assert_eq!(out[..8], [65535; 8]);
}

/// 02, i: an HDR solid block shows its colours as stored, an LDR one the half floats of its.
#[test]
fn solid_in_kind_2() {
    let extents = "FF FF FF FF FF FF";
    let mut out = [0; 64];
    // infinity, a signalling NaN, a negative number, 65535
    let hdr = hex(&format!("FC FF {extents} 00 7C 01 FD 34 92 FF FF"));
    assert_eq!(decode(0, Kind::Float16, &hdr, &mut out), 0);
    assert!(out.chunks(4).all(|t| t == [0x7C00, 0xFD01, 0x9234, 0xFFFF]));
    let ldr = hex(&format!("FC FD {extents} 00 7C 01 FD 03 00 FF FF"));
    assert_eq!(decode(0, Kind::Float16, &ldr, &mut out), 0);
    assert!(out.chunks(4).all(|t| t == [0x37C0, 0x3BE8, 0x0300, 0x3C00]));
    let s = read(0, &hdr).unwrap();
    assert_eq!((s.mark, s.hdr, s.colours), (1, 1, [0x7C00, 0xFD01, 0x9234, 0xFFFF]));
    assert_eq!(write(0, &s), Ok(hdr));
    assert_eq!(read(0, &ldr).unwrap().hdr, 0);
}

/// 02, i: the HDR mark of a mode sheet.
#[test]
fn hdr_mark() {
    let mut s = SymbolicBlock::ZERO;
    (s.width, s.height, s.depth, s.range, s.planes, s.partitions) = (4, 4, 1, 2, 1, 1);
    assert_eq!(refusal(0, &s), 0);
    s.hdr = 1;
    assert_eq!(refusal(0, &s), 35);
    s.weights[63] = 1;
    assert_eq!(refusal(0, &s), 34);
    s.hdr = 2;
    assert_eq!(refusal(0, &s), 31);
    s.weights[63] = 0;
    for mode in 0..16 {
        s.modes[0] = mode;
        let hdr = [2, 3, 7, 11, 14, 15].contains(&mode);
        s.hdr = 0;
        assert_eq!(refusal(0, &s), if hdr { 20 } else { 0 });
        s.hdr = 1;
        assert_eq!(refusal(0, &s), if hdr { 0 } else { 35 });
    }
    // some partition is enough
    s.partitions = 2;
    s.selector = 1;
    s.modes = [0, 2, 0, 0];
    assert_eq!(refusal(0, &s), 0);
    s.hdr = 0;
    assert_eq!(refusal(0, &s), 20);
    // a mode past the count is no partition's: it is unused
    s.modes = [0, 0, 2, 0];
    assert_eq!(refusal(0, &s), 31);
    let solid = SymbolicBlock { mark: 1, hdr: 2, extents: random::all_ones(0), ..SymbolicBlock::ZERO };
    assert_eq!(refusal(0, &solid), 31);
    assert_eq!(refusal(0, &SymbolicBlock { hdr: 1, ..solid }), 0);
    assert_eq!(refusal(0, &SymbolicBlock { hdr: 1, extents: [1, 1, 0, 1, 0, 0], ..solid }), 12);
}

/// Endpoints 0 and 1 at weight 32 in all channels: 129 in kind 0; 1 in kind 1, alpha too (02, request d).
#[test]
fn half_weight() {
    let mut s = SymbolicBlock::ZERO;
    // Weights 0..2 of which 1 is 32.
    (s.width, s.height, s.depth, s.range, s.planes, s.partitions) = (4, 4, 1, 1, 1, 1);
    s.modes[0] = 12;
    s.weights[..16].fill(1);
    for i in 0..4 {
        s.endpoints[2 * i + 1] = 1;
    }
    // Eight numbers in 111 - 26 bits: 0..255, so that numbers stand for themselves.
    assert_eq!(refusal(0, &s), 0);
    assert_eq!(picture(0, Kind::Unorm16, &s, [0, 0, 0]), [129; 4]);
    assert_eq!(picture(0, Kind::Srgb8, &s, [0, 0, 0]), [1; 4]);
    // Mode 1 with 255, 255: both 255.
    s.modes[0] = 1;
    s.endpoints = [0; 18];
    s.endpoints[..2].fill(255);
    for weight in 0..3 {
        s.weights[..16].fill(weight);
        assert_eq!(picture(0, Kind::Unorm16, &s, [3, 3, 0]), [65535; 4]);
    }
    // Mode 5: transfer of 192 onto 100: offset -32, base 178.
    s.modes[0] = 5;
    s.endpoints[..4].copy_from_slice(&[100, 192, 255, 0]);
    s.weights[..16].fill(0);
    assert_eq!(picture(0, Kind::Srgb8, &s, [0, 0, 0])[0], 178);
    s.weights[..16].fill(2);
    assert_eq!(picture(0, Kind::Srgb8, &s, [0, 0, 0])[0], 146);
}

#[test]
fn limits() {
    assert_eq!(block_refusal(13, 16, 576), 0);
    assert_eq!(block_refusal(14, 16, 4 * 27), 0);
    assert_eq!(block_refusal(23, 16, 4 * 216), 0);
    assert_eq!(block_refusal(24, 0, 0), 1);
    assert_eq!(block_refusal(23, 15, 0), 4);
    assert_eq!(block_refusal(23, 16, 4 * 36), 5);
    assert_eq!((read_refusal(23, 16), read_refusal(23, 17), read_refusal(24, 17)), (0, 4, 1));
    assert_eq!(block_refusal(0, 15, 0), 4);
    assert_eq!(block_refusal(0, 16, 63), 5);
    assert_eq!(image_refusal(0, 16384, 1, 16 * 4096, 4 * 16384), 0);
    assert_eq!(image_refusal(0, 16385, 1, 16 * 4097, 4 * 16385), 3);
    assert_eq!(image_refusal(0, 1, 0, 0, 0), 3);
    assert_eq!(image_refusal(14, 1, 0, 0, 0), 1);
    assert_eq!(image_refusal(0, 5, 5, 63, 1), 4);
    assert_eq!(image_refusal(0, 5, 5, 64, 1), 5);
    assert_eq!(view_refusal(14, 3, 3, 16), 1);
    assert_eq!(volume_refusal(24, [0, 1, 1], 0, 0), 1);
    for size in [[0, 1, 1], [1, 0, 1], [1, 1, 0], [16385, 1, 1], [1, 16385, 1], [1, 1, 2049], [u32::MAX; 3]] {
        assert_eq!(volume_refusal(23, size, 0, 0), 3);
    }
    assert_eq!(volume_refusal(0, [1, 1, 2048], 16 * 2048, 4 * 2048), 0);
    assert_eq!(volume_refusal(23, [16384, 1, 1], 16 * 2731, 4 * 16384), 0);
    assert_eq!(volume_refusal(23, [1, 16384, 7], 16 * 2731 * 2, 4 * 7 * 16384), 0);
    assert_eq!(volume_refusal(14, [3, 3, 4], 16, 144), 4);
    assert_eq!(volume_refusal(14, [3, 3, 4], 32, 143), 5);
    // 2^35 blocks of a flat footprint
    assert_eq!(volume_refusal(0, [16384, 16384, 2048], 1 << 39, 1 << 41), 0);
}

#[test]
fn block_modes() {
    let mut grids = 0;
    for (mode, &meaning) in BLOCK_MODES[0].iter().enumerate() {
        match meaning {
            BlockMode::Grid(g) => {
                grids += 1;
                let sides = [g.width, g.height, g.depth].map(usize::from);
                assert_eq!(mode_number(sides, g.range as usize, g.planes as usize), Some(mode as u16));
            }
            BlockMode::VoidExtent => assert_eq!(mode & 511, 508),
            BlockMode::Reserved => (),
        }
    }
    let mut found = 0;
    for planes in 1..=2 {
        for range in 0..12 {
            for height in 2..=12 {
                for width in 2..=12 {
                    if let Some(mode) = mode_number([width, height, 1], range, planes) {
                        found += 1;
                        let [width, height, range, planes] = [width, height, range, planes].map(|n| n as u8);
                        let grid = Grid { width, height, depth: 1, range, planes };
                        assert_eq!(BLOCK_MODES[0][mode as usize], BlockMode::Grid(grid));
                    }
                }
            }
        }
    }
    assert_eq!(grids, 2048 - 4 - 172);
    assert_eq!(found, grids);
}

/// A block of two partitions, worked out by hand from the layout figure: selector 1,
/// class bits 0 and 1, mode bits 01 and 10.
#[test]
fn mode_bits_after_class_bits() {
    let mut s = SymbolicBlock::ZERO;
    (s.width, s.height, s.depth, s.range, s.planes, s.partitions) = (4, 4, 1, 2, 1, 2);
    (s.index, s.selector) = (1, 1);
    s.modes = [1, 6, 0, 0];
    let block = u128::from_le_bytes(write(0, &s).unwrap());
    assert_eq!(block >> 23 & 3, 1);
    assert_eq!(block >> 25 & 3, 0b10);
    assert_eq!(block >> 27 & 3, 0b01);
    // 32 weight bits, then the two extra bits.
    assert_eq!(block >> 94 & 3, 0b10);
    assert_eq!(block >> 96, 0);
}

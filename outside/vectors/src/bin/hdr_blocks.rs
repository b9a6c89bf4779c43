//! Writes HDR blocks for make_float16: hdr_blocks SEED COUNT DIRECTORY flat|volumes
//!
//! For each footprint N: float16_N, about COUNT blocks without fault in kind 2 that are HDR: every endpoint mode with every submode; random
//! settings, LDR partitions beside HDR ones and two planes among them, written and loosely written; void extents; random bits.

use reference::random::*;
use reference::{ALL_FOOTPRINTS, FOOTPRINTS, Kind, SymbolicBlock, fault, is_volume, read, write};

fn blocks(r: &mut Random, footprint: usize, count: usize) -> Vec<[u8; 16]> {
    let mut blocks = Vec::new();
    let mut put = |r: &mut Random, s: &SymbolicBlock| {
        blocks.push(if r.once_in(2) { write(footprint, s).unwrap() } else { loose_block(r, footprint, s) })
    };
    for s in every_submode(r, footprint) {
        put(r, &s);
    }
    for _ in 0..count / 20 {
        let s = hdr_void_extent(r, footprint);
        put(r, &s);
    }
    for _ in 0..count / 2 {
        let s = hdr_mode_block(r, footprint);
        put(r, &s);
    }
    // Volumes have few blocks: these would not come by chance.
    for (mode, channel) in [14, 15].into_iter().flat_map(|mode| (0..4).map(move |channel| (mode, channel))) {
        if is_volume(footprint) {
            let s = block_of_submode(r, footprint, mode, 0);
            let mut s = SymbolicBlock { planes: 2, plane_channel: channel, range: 0, ..s };
            fill_numbers(r, &mut s);
            put(r, &s);
        }
    }
    while blocks.len() < count {
        let block = if r.once_in(2) {
            block_of_any_mode(r)
        } else {
            let block = write(footprint, &any_symbolic_block(r, footprint)).unwrap();
            flip_bits(r, block)
        };
        if fault(footprint, Kind::Float16, &block) == 0 && read(footprint, &block).unwrap().hdr == 1 {
            blocks.push(block);
        }
    }
    // In random order, so that any first part is mixed.
    for i in (1..blocks.len()).rev() {
        blocks.swap(i, r.below(i + 1));
    }
    blocks
}

fn main() {
    let arguments: Vec<String> = std::env::args().collect();
    let [_, seed, count, directory, which] = arguments.as_slice() else {
        panic!("hdr_blocks SEED COUNT DIRECTORY flat|volumes")
    };
    let footprints = if which == "volumes" { FOOTPRINTS.len()..ALL_FOOTPRINTS } else { 0..FOOTPRINTS.len() };
    let (seed, count): (u64, usize) = (seed.parse().unwrap(), count.parse().unwrap());
    let mut r = Random(seed);
    for footprint in footprints {
        let name = format!("{directory}/float16_{footprint}");
        std::fs::write(name, blocks(&mut r, footprint, count).concat()).unwrap();
    }
}

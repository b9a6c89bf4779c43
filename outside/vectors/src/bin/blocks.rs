//! Writes blocks for make_vectors: blocks SEED COUNT DIRECTORY flat|volumes
//!
//! For each footprint N: plain_N (blocks without fault, about COUNT), faulty_N (other faults
//! than 20), hdr_N (fault 20), and hdr_N.mask (a byte for each texel: 1 in an HDR partition).

use reference::random::*;
use reference::{ALL_FOOTPRINTS, FOOTPRINTS, Kind, SymbolicBlock, write};

/// The fault in kinds 0 and 1.
fn fault(footprint: usize, block: &[u8; 16]) -> u8 {
    reference::fault(footprint, Kind::Unorm16, block)
}

/// Mode 0, 4, 8 or 12 with endpoints under 8, so that all sixteen bits of kind 0 are visible.
fn dark_block(r: &mut Random, footprint: usize) -> SymbolicBlock {
    loop {
        let mut s = mode_block(r, footprint);
        let direct = s.modes[..s.partitions as usize].iter().all(|m| m % 4 == 0);
        if !direct || s.endpoint_most() != 255 {
            continue;
        }
        for number in &mut s.endpoints {
            *number = (*number).min(r.below(8) as u16);
        }
        return s;
    }
}

fn plain(r: &mut Random, footprint: usize, count: usize) -> Vec<[u8; 16]> {
    let mut blocks = Vec::new();
    let block = |r: &mut Random, s: &SymbolicBlock| {
        if r.once_in(2) { write(footprint, s).unwrap() } else { loose_block(r, footprint, s) }
    };
    for _ in 0..count / 10 {
        let s = dark_block(r, footprint);
        blocks.push(block(r, &s));
    }
    for mode in 0..2048 {
        if let Some(s) = block_of_mode(r, footprint, mode) {
            blocks.push(with_mode(block(r, &s), mode));
        }
    }
    for _ in 0..count / 2 {
        let s = symbolic_block(r, footprint);
        blocks.push(block(r, &s));
    }
    while blocks.len() < count {
        let block = if r.once_in(2) {
            block_of_any_mode(r)
        } else {
            let block = write(footprint, &symbolic_block(r, footprint)).unwrap();
            flip_bits(r, block)
        };
        if fault(footprint, &block) == 0 {
            blocks.push(block);
        }
    }
    // In random order, so that any first part is mixed.
    for i in (1..blocks.len()).rev() {
        blocks.swap(i, r.below(i + 1));
    }
    blocks
}

/// About equally many of each fault, as far as the footprint has it.
fn faulty(r: &mut Random, footprint: usize, each: usize) -> Vec<[u8; 16]> {
    let mut blocks = Vec::new();
    let mut seen = [0; 21];
    for round in 0..4000 * each {
        let block = match round % 4 {
            0 => void_extent_block(r, footprint),
            1 => {
                let block = write(footprint, &symbolic_block(r, footprint)).unwrap();
                flip_bits(r, block)
            }
            _ => block_of_any_mode(r),
        };
        let number = fault(footprint, &block) as usize;
        if number != 0 && number != 20 && seen[number] < each {
            seen[number] += 1;
            blocks.push(block);
        }
        if seen.iter().sum::<usize>() == 9 * each {
            break;
        }
    }
    blocks
}

fn main() {
    let arguments: Vec<String> = std::env::args().collect();
    let [_, seed, count, directory, which] = arguments.as_slice() else {
        panic!("blocks SEED COUNT DIRECTORY flat|volumes")
    };
    let footprints = if which == "volumes" { FOOTPRINTS.len()..ALL_FOOTPRINTS } else { 0..FOOTPRINTS.len() };
    let (seed, count): (u64, usize) = (seed.parse().unwrap(), count.parse().unwrap());
    let mut r = Random(seed);
    for footprint in footprints {
        let save = |name: String, bytes: Vec<u8>| std::fs::write(format!("{directory}/{name}"), bytes).unwrap();
        save(format!("plain_{footprint}"), plain(&mut r, footprint, count).concat());
        save(format!("faulty_{footprint}"), faulty(&mut r, footprint, 20 + count / 100).concat());
        let (mut blocks, mut mask) = (Vec::new(), Vec::new());
        for _ in 0..20 + count / 20 {
            let (block, hdr) = fault20_block(&mut r, footprint);
            assert_eq!(fault(footprint, &block), 20);
            blocks.extend(block);
            mask.extend(hdr);
        }
        save(format!("hdr_{footprint}"), blocks);
        save(format!("hdr_{footprint}.mask"), mask);
    }
}

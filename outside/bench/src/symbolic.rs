//! Symbolic blocks: writing and reading them as lists of 107 numbers, against the reference's writer and reader over the same lists.
//!
//! Mixed LDR mode blocks at 6x6 and 12x12, and the worst case of the packed numbers: trit weights and eighteen trit endpoint numbers, all
//! groups with the digits 2, 1, 2, 1, 2.

use reference::random::{Random, mode_block};
use reference::{NUMBERS, SymbolicBlock};

use crate::{SEED, largest, measure};

const COUNT: usize = 20_000;

type Case = (u8, [u16; NUMBERS]);

fn mixed() -> Vec<Case> {
    let mut r = Random(SEED);
    let one = |i: usize, r: &mut Random| {
        let footprint = [4, 13][i % 2];
        (footprint as u8, mode_block(r, footprint).to_numbers())
    };
    (0..COUNT).map(|i| one(i, &mut r)).collect()
}

/// Three partitions of six endpoint numbers in 0..5, and 32 weights in 0..2.
fn worst() -> Vec<Case> {
    let mut s = SymbolicBlock { partitions: 3, index: 77, modes: [8, 8, 8, 0], ..SymbolicBlock::ZERO };
    (s.width, s.height, s.depth, s.range, s.planes) = (8, 4, 1, 1, 1);
    let digit = |i: usize| [2, 1, 2, 1, 2][i % 5];
    s.endpoints = std::array::from_fn(|i| 2 * digit(i) + i as u16 % 2);
    s.weights = std::array::from_fn(|i| if i < 32 { digit(i) } else { 0 });
    assert_eq!(s.endpoint_most(), 5);
    vec![(13, s.to_numbers()); COUNT]
}

fn case(name: &str, rounds: usize, cases: &[Case]) -> [f64; 2] {
    let (mut ours, mut theirs) = (vec![[1u8; 16]; cases.len()], vec![[2u8; 16]; cases.len()]);
    let write = |blocks: &mut [[u8; 16]]| {
        for ((footprint, numbers), block) in cases.iter().zip(blocks) {
            library::raw::write_symbolic(*footprint, numbers, block);
        }
    };
    let reference_write = |blocks: &mut [[u8; 16]]| {
        for ((footprint, numbers), block) in cases.iter().zip(blocks) {
            let s = SymbolicBlock::from_numbers(numbers);
            *block = reference::write(*footprint as usize, &s).unwrap_or_default();
        }
    };
    write(&mut ours);
    reference_write(&mut theirs);
    assert!(ours == theirs && ours[0] != [0; 16], "{name}: not the same blocks");
    let blocks = ours.clone();
    let ratios = measure(&format!("writing, {name}"), rounds, || write(&mut ours), || reference_write(&mut theirs));

    let (mut ours, mut theirs) = (vec![[1u16; NUMBERS]; cases.len()], vec![[2u16; NUMBERS]; cases.len()]);
    let read = |lists: &mut [[u16; NUMBERS]]| {
        for (((footprint, _), block), numbers) in cases.iter().zip(&blocks).zip(lists) {
            library::raw::read_symbolic(*footprint, block, numbers, &mut [0; 2]);
        }
    };
    let reference_read = |lists: &mut [[u16; NUMBERS]]| {
        for (((footprint, _), block), numbers) in cases.iter().zip(&blocks).zip(lists) {
            *numbers = reference::read_spare(*footprint as usize, block).map_or([0; NUMBERS], |(s, _)| s.to_numbers());
        }
    };
    read(&mut ours);
    reference_read(&mut theirs);
    let given = cases.iter().zip(&ours).all(|((_, numbers), read)| numbers == read);
    assert!(given && ours == theirs, "{name}: not the same numbers");
    largest(ratios, measure(&format!("reading, {name}"), rounds, || read(&mut ours), || reference_read(&mut theirs)))
}

pub fn run(rounds: usize) -> [f64; 2] {
    largest(case("mixed blocks", rounds, &mixed()), case("trits 2, 1, 2, 1, 2", rounds, &worst()))
}

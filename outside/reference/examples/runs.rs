//! Makes the inputs of the programs writer_runs, reader_runs and sequence_runs and the outputs they must have: runs DIR
use std::fmt::Write;
use std::fs::write as store;
use std::path::Path;

use reference::random::*;
use reference::tables::{ENDPOINT_RANGES, Encoding, WEIGHT_RANGES};
use reference::{
    ALL_FOOTPRINTS, Kind, NUMBERS, SymbolicBlock, bit_count, ending, fault, read_spare, refusal, unpack, write,
};

/// 01's numbers of a writer's refusals.
const REFUSALS: [u8; 15] = [0, 1, 12, 14, 15, 16, 17, 18, 19, 20, 31, 32, 33, 34, 35];
/// Cases of each sort.
const EACH: usize = 6;

fn main() {
    let dir = std::env::args().nth(1).expect("a directory");
    let mut r = Random(2026);
    writer_runs(&mut r, Path::new(&dir));
    reader_runs(&mut r, Path::new(&dir));
    // its own seed, so that it does not change with the others
    sequence_runs(&mut Random(0x27af_941b_6e2c_cb94), Path::new(&dir));
}

fn writer_runs(r: &mut Random, dir: &Path) {
    let (mut input, mut output) = (Vec::new(), String::new());
    let mut put = |footprint: usize, s: &SymbolicBlock| {
        input.extend(record(footprint, s));
        output += &match write(footprint, s) {
            Ok(bytes) => format!("block{}\n", spaced(&bytes)),
            Err(number) => format!("refused {number}\n"),
        };
    };
    for footprint in 0..ALL_FOOTPRINTS {
        for _ in 0..EACH {
            put(footprint, &mode_block(r, footprint));
        }
        put(footprint, &void_extent(r, footprint));
        for _ in 0..2 {
            put(footprint, &hdr_mode_block(r, footprint));
        }
        put(footprint, &hdr_void_extent(r, footprint));
    }
    for wanted in REFUSALS {
        let mut found = 0;
        while found < EACH {
            let footprint = if wanted == 1 { ALL_FOOTPRINTS + r.below(256 - ALL_FOOTPRINTS) } else { any_footprint(r) };
            let s = candidate(r, footprint.min(ALL_FOOTPRINTS - 1));
            if in_bytes(&s) && refusal(footprint, &s) == wanted {
                put(footprint, &s);
                found += 1;
            }
        }
    }
    store(dir.join("writer.in"), input).expect("writer.in");
    store(dir.join("writer.out"), output).expect("writer.out");
}

/// Acceptable, with a number changed, or with any settings.
fn candidate(r: &mut Random, footprint: usize) -> SymbolicBlock {
    let mut s = match r.below(6) {
        0 => settings(r, footprint, true),
        1 => void_extent(r, footprint),
        2 => hdr_symbolic_block(r, footprint),
        3 => SymbolicBlock { hdr: 1, ..mode_block(r, footprint) },
        _ => mode_block(r, footprint),
    };
    for _ in 0..r.below(3) {
        let mut numbers = s.to_numbers();
        numbers[r.below(NUMBERS)] = r.pick(&[0, 1, 2, 3, 4, 5, 6, 12, 13, 255]);
        s = SymbolicBlock::from_numbers(&numbers);
    }
    s
}

/// Only colours, extents and the partition index are more than a byte.
fn is_wide(place: usize) -> bool {
    matches!(place, 1..9 | 15 | 105..107)
}

fn in_bytes(s: &SymbolicBlock) -> bool {
    s.to_numbers().into_iter().enumerate().all(|(i, n)| is_wide(i) || n < 256)
}

/// The footprint, then the list of numbers: a byte each, the wide ones two, low byte first.
fn record(footprint: usize, s: &SymbolicBlock) -> Vec<u8> {
    let mut bytes = vec![footprint as u8];
    for (i, n) in s.to_numbers().into_iter().enumerate() {
        bytes.extend(&n.to_le_bytes()[..1 + is_wide(i) as usize]);
    }
    bytes
}

/// Blocks with any fitting codes, any spare bits and either of two block modes, blocks of any mode, void extents, and a footprint that is refused.
fn reader_runs(r: &mut Random, dir: &Path) {
    let (mut input, mut output) = (Vec::new(), String::new());
    let mut put = |footprint: usize, block: [u8; 16]| {
        input.push(footprint as u8);
        input.extend(block);
        output += &told(footprint, &block);
    };
    for footprint in 0..ALL_FOOTPRINTS {
        for _ in 0..EACH {
            let s = mode_block(r, footprint);
            put(footprint, loose_block(r, footprint, &s));
            put(footprint, block_of_any_mode(r));
            put(footprint, void_extent_block(r, footprint));
        }
        for _ in 0..2 {
            let s = hdr_mode_block(r, footprint);
            put(footprint, loose_block(r, footprint, &s));
        }
        put(footprint, write(footprint, &hdr_void_extent(r, footprint)).expect("an acceptable symbolic block"));
    }
    // 13 and 20 are of kinds 0 and 1: the reader takes these blocks
    for wanted in 11..=20 {
        let mut found = 0;
        while found < EACH {
            let footprint = any_footprint(r);
            let block = block_of_any_mode(r);
            let block = if r.once_in(2) { void_extent_block(r, footprint) } else { block };
            if fault(footprint, Kind::Unorm16, &block) == wanted {
                put(footprint, block);
                found += 1;
            }
        }
    }
    put(ALL_FOOTPRINTS, r.bytes());
    put(255, r.bytes());
    store(dir.join("reader.in"), input).expect("reader.in");
    store(dir.join("reader.out"), output).expect("reader.out");
}

fn told(footprint: usize, block: &[u8; 16]) -> String {
    if footprint >= ALL_FOOTPRINTS {
        return "refused 1\n".into();
    }
    match read_spare(footprint, block) {
        Err(number) => format!("fault {number}\n"),
        Ok((s, spare)) => {
            let bytes = write(footprint, &s).expect("what was read is acceptable");
            let (fields, spare) = (spaced(&s.to_numbers()), spaced(&spare.to_numbers()));
            format!("fields{fields} spare{spare} block{} same texels\n", spaced(&bytes))
        }
    }
}

/// Every code of a cut group of trits and of quints without other bits, all bits past it set; then numbers of every range in random blocks.
fn sequence_runs(r: &mut Random, dir: &Path) {
    let (mut input, mut output) = (Vec::new(), String::new());
    let mut put = |range: usize, n: usize, from: u32, block: u128| {
        input.extend([range as u8, n as u8, from as u8]);
        input.extend(block.to_le_bytes());
        let (encoding, stream) = (encoding_of(range), block >> from);
        let ending = ending(encoding, n, stream);
        let mut numbers = vec![0; n];
        unpack(encoding, n, stream, |i, v| numbers[i] = v);
        let numbers = spaced(&numbers[..n.min(64)]);
        output += &format!("end {} zero {} numbers{numbers}\n", ending.end, ending.zero as u8);
    };
    for (range, size) in [(1, 5), (3, 3)] {
        for n in 1..size {
            let bits = bit_count(encoding_of(range), n);
            for code in 0..1 << bits {
                put(range, n as usize, 0, code | u128::MAX << bits);
            }
        }
    }
    for range in 0..21 {
        let most = (0..128).rev().find(|&n| bit_count(encoding_of(range), n) < 128).expect("a count") as usize;
        put(range, 0, 0, u128::MAX);
        put(range, most, 0, u128::from_le_bytes(r.bytes()));
        for _ in 0..EACH {
            let n = r.below(most + 1);
            let room = 128 - bit_count(encoding_of(range), n as u32) as usize;
            put(range, n, r.below(room + 1) as u32 % 128, u128::from_le_bytes(r.bytes()));
        }
        // Whole groups before a cut one, where there are digits.
        let size = [1, 5, 3][encoding_of(range).digit as usize];
        for present in 1..size {
            put(range, size + present, 3, u128::from_le_bytes(r.bytes()));
        }
    }
    store(dir.join("sequence.in"), input).expect("sequence.in");
    store(dir.join("sequence.out"), output).expect("sequence.out");
}

/// Of the list of 21, by growing size: the weight ranges are the first 12, the endpoint ranges the last 17.
fn encoding_of(range: usize) -> Encoding {
    if range < 12 { WEIGHT_RANGES[range] } else { ENDPOINT_RANGES[range - 4] }
}

fn spaced<T: std::fmt::Display>(numbers: &[T]) -> String {
    numbers.iter().fold(String::new(), |mut text, n| {
        write!(text, " {n}").expect("text");
        text
    })
}

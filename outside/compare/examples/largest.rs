//! The largest image of 12x12 blocks, 16,384 by 16,384, in kinds 0 and 1: the texels of its edges and a million drawn at random are
//! held to the reference, and the tally to a count. Prints each call's time and the most memory taken. It takes 3 GB; the gate does not
//! run it: cargo run --release --example largest
use std::time::Instant;

use library::{FirstFault, Footprint, Tally};
use reference::random::{Random, symbolic_block};
use reference::{FOOTPRINTS, Kind, decode_u8, decode_u16, fault, write};

const SIDE: usize = 16384;
const ACROSS: usize = SIDE.div_ceil(12);
const DRAWN: usize = 1_000_000;

fn main() {
    let f = FOOTPRINTS.iter().position(|&sides| sides == (12, 12)).unwrap();
    let mut r = Random(16384);
    let drawn: Vec<[u8; 16]> = (0..4096)
        .map(|i| if i % 64 == 0 { r.bytes() } else { write(f, &symbolic_block(&mut r, f)).unwrap() })
        .collect();
    let blocks: Vec<[u8; 16]> = (0..ACROSS * ACROSS).map(|_| r.pick(&drawn)).collect();
    let faults: Vec<u8> = blocks.iter().map(|b| fault(f, Kind::Unorm16, b)).collect();
    let first = faults.iter().position(|&e| e != 0).unwrap();
    let first = FirstFault { block: first as u64, fault: faults[first].try_into().unwrap() };
    let tally = Tally { faulty: faults.iter().filter(|&&e| e != 0).count() as u64, first: Some(first) };
    let footprint = Footprint::try_from(f as u8).unwrap();
    let places = places(&mut r);

    let mut wide = vec![0u16; 4 * SIDE * SIDE];
    let began = Instant::now();
    let told =
        library::decode_image_unorm16(footprint, SIDE as u32, SIDE as u32, blocks.as_flattened(), &mut wide).unwrap();
    println!("kind 0: {:.2} s", began.elapsed().as_secs_f64());
    assert_eq!(told, tally);
    let mut block = [0u16; 576];
    for &(x, y) in &places {
        decode_u16(f, &blocks[y / 12 * ACROSS + x / 12], &mut block);
        let (at, from) = (4 * (y * SIDE + x), 4 * (y % 12 * 12 + x % 12));
        assert_eq!(wide[at..at + 4], block[from..from + 4], "kind 0 at {x}, {y}");
    }
    drop(wide);

    let mut bytes = vec![0u8; 4 * SIDE * SIDE];
    let began = Instant::now();
    let told =
        library::decode_image_srgb8(footprint, SIDE as u32, SIDE as u32, blocks.as_flattened(), &mut bytes).unwrap();
    println!("kind 1: {:.2} s", began.elapsed().as_secs_f64());
    assert_eq!(told, tally);
    let mut block = [0u8; 576];
    for &(x, y) in &places {
        decode_u8(f, &blocks[y / 12 * ACROSS + x / 12], &mut block);
        let (at, from) = (4 * (y * SIDE + x), 4 * (y % 12 * 12 + x % 12));
        assert_eq!(bytes[at..at + 4], block[from..from + 4], "kind 1 at {x}, {y}");
    }
    println!("{} texels in each kind agree, {} faulty blocks, the first {}", places.len(), tally.faulty, first.block);
    let status = std::fs::read_to_string("/proc/self/status").unwrap_or_default();
    println!("{}", status.lines().find(|line| line.starts_with("VmHWM")).unwrap_or("no measure of memory"));
}

/// The places that are looked at: the four edges, and those drawn.
fn places(r: &mut Random) -> Vec<(usize, usize)> {
    let last = SIDE - 1;
    let edges = (0..SIDE).flat_map(|i| [(i, 0), (0, i), (i, last), (last, i)]);
    edges.chain((0..DRAWN).map(|_| (r.below(SIDE), r.below(SIDE)))).collect()
}

//! Prints the reference's tables in the form of tables/make_tables.py.

use reference::random::{one_partition, places};
use reference::tables::{
    BLOCK_MODES, BlockMode, ENDPOINT_RANGES, ENDPOINTS, Grid, QUINTS, TRITS, WEIGHT_RANGES, WEIGHTS,
};
use reference::{ALL_FOOTPRINTS, Kind, SymbolicBlock, is_volume, picture, refusal, sides};

fn line(head: String, numbers: &[u8]) {
    let numbers: Vec<String> = numbers.iter().map(u8::to_string).collect();
    println!("{head} {}", numbers.join(" "));
}

/// The partition of each texel as the picture shows it: mode 0, partition p all of grey level p.
fn partitions(footprint: usize, count: u16, index: u16) -> String {
    // 24 weight bits leave 75 for at most eight numbers: 0..255.
    let [width, height, depth] = if is_volume(footprint) { [3, 2, 2] } else { [4, 3, 1] };
    let grid = one_partition(Grid { width, height, depth, range: 2, planes: 1 });
    let mut s = SymbolicBlock { partitions: count, index, ..grid };
    for i in 0..2 * count as usize {
        s.endpoints[i] = i as u16 / 2;
    }
    assert_eq!(refusal(footprint, &s), 0);
    let digit = |place| char::from(b'0' + picture(footprint, Kind::Srgb8, &s, place)[0] as u8);
    places(footprint).map(digit).collect()
}

fn main() {
    for (code, digits) in TRITS.iter().enumerate() {
        line(format!("trit {code}"), digits);
    }
    for (code, digits) in QUINTS.iter().enumerate() {
        line(format!("quint {code}"), digits);
    }
    for (range, table) in ENDPOINT_RANGES.iter().zip(&ENDPOINTS) {
        line(format!("endpoint {}", range.most), &table[..=range.most as usize]);
    }
    for (range, table) in WEIGHT_RANGES.iter().zip(&WEIGHTS) {
        line(format!("weight {}", range.most), &table[..=range.most as usize]);
    }
    for (number, mode) in BLOCK_MODES[0].iter().enumerate() {
        match mode {
            BlockMode::VoidExtent => println!("mode {number} void"),
            BlockMode::Reserved => println!("mode {number} reserved"),
            BlockMode::Grid(g) => println!("mode {number} {} {} {} {}", g.width, g.height, g.range, g.planes),
        }
    }
    for footprint in 0..ALL_FOOTPRINTS {
        let [width, height, depth] = sides(footprint);
        let name = if is_volume(footprint) {
            format!("layers {width} {height} {depth}")
        } else {
            format!("partition {width} {height}")
        };
        for count in 2..=4 {
            for index in [0, 1, 2, 511, 512, 1023] {
                println!("{name} {count} {index} {}", partitions(footprint, count, index));
            }
        }
    }
}

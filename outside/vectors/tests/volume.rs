//! The reference shows the stored volumes, and the blocks of make_volume_runs, as astcenc does.

use reference::{
    Kind, Tally, decode, decode_volume_f16, decode_volume_u8, decode_volume_u16, is_volume, sides, texels,
};
use vectors::volume::PLACES;

/// Every volume footprint is among them, and edge blocks on every axis.
#[test]
fn reference_agrees() {
    let mut footprints = std::collections::BTreeSet::new();
    for volume in vectors::volume::stored() {
        let (f, size) = (volume.footprint as usize, volume.size.map(|side| side as usize));
        let len = volume.numbers();
        let (mut numbers, mut bytes, mut halves) = (vec![0; len], vec![0; len], vec![0; len]);
        assert_eq!(decode_volume_u16(f, size, volume.blocks, &mut numbers), Tally::default());
        assert_eq!(decode_volume_u8(f, size, volume.blocks, &mut bytes), Tally::default());
        assert_eq!(decode_volume_f16(f, size, volume.blocks, &mut halves), Tally::default());
        assert!(volume.shows(&numbers, &bytes, &halves), "footprint {f}, {size:?}");
        let cut = size.iter().zip(sides(f)).filter(|&(&side, block)| side > block && side % block != 0).count();
        assert_eq!(cut, if is_volume(f) { 3 } else { 2 });
        footprints.insert(f);
    }
    assert!(footprints.iter().copied().filter(|&f| is_volume(f)).eq(14..24));
    assert!(footprints.iter().filter(|&&f| !is_volume(f)).count() > 1);
}

/// The eleven highest bits, and 65535.
fn kept(n: u16) -> u16 {
    let below = (16 - n.leading_zeros()).saturating_sub(11);
    if n == 65535 { n } else { n >> below << below }
}

/// What a program as texel_runs would write of these blocks.
#[test]
fn runs() {
    let mut lines = Vec::new();
    for record in include_bytes!("../data/volume_runs.stdin").as_chunks::<17>().0 {
        let (f, block) = (record[0] as usize, record[1..].try_into().unwrap());
        let [width, height, depth] = sides(f);
        let shown = Kind::ALL.map(|kind| {
            let mut out = vec![0; 4 * texels(f)];
            (decode(f, kind, block, &mut out), out)
        });
        lines.push(format!("footprint {f} fault {} {} {}", shown[0].0, shown[1].0, shown[2].0));
        for [x, y, z] in PLACES.into_iter().chain([[width - 1, height - 1, depth - 1]]) {
            let at = 4 * ((z * height + y) * width + x);
            let numbers = shown.iter().zip([kept, |n| n, |n| n]).flat_map(|((_, out), kept)| {
                out[at..at + 4].iter().map(move |&n| kept(n).to_string()).collect::<Vec<_>>()
            });
            lines.push(format!("{x} {y} {z} {}", numbers.collect::<Vec<_>>().join(" ")));
        }
    }
    let expected: Vec<&str> = include_str!("../data/volume_runs.stdout").lines().collect();
    assert!(expected.len() > 600);
    assert_eq!(lines, expected);
}

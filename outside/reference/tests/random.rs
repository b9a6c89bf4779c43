//! Reader, writer, decoder and picture against each other on random blocks.

use reference::random::*;
use reference::*;

const ROUNDS: usize = 100_000;

fn all_texels(footprint: usize, kind: Kind, s: &SymbolicBlock) -> Vec<u16> {
    places(footprint).flat_map(|place| picture(footprint, kind, s, place)).collect()
}

fn shown(footprint: usize, kind: Kind, block: &[u8; 16]) -> (u8, Vec<u16>) {
    let mut out = vec![7; 4 * texels(footprint)];
    let fault = decode(footprint, kind, block, &mut out);
    (fault, out)
}

#[test]
fn write_read_write() {
    let mut r = Random(1);
    for _ in 0..ROUNDS {
        let footprint = any_footprint(&mut r);
        let s = any_symbolic_block(&mut r, footprint);
        let block = write(footprint, &s).unwrap();
        assert_eq!(read(footprint, &block), Ok(s));
        assert_eq!(write(footprint, &read(footprint, &block).unwrap()), Ok(block));
        let loose = loose_block(&mut r, footprint, &s);
        assert_eq!(read(footprint, &loose), Ok(s));
        assert_eq!(SymbolicBlock::from_numbers(&s.to_numbers()), s);
    }
}

#[test]
fn picture_is_what_the_block_shows() {
    let mut r = Random(2);
    for _ in 0..ROUNDS / 10 {
        let footprint = any_footprint(&mut r);
        let s = any_symbolic_block(&mut r, footprint);
        let block = loose_block(&mut r, footprint, &s);
        for kind in Kind::ALL.into_iter().filter(|kind| s.hdr == 0 || kind.takes_hdr()) {
            assert_eq!(shown(footprint, kind, &block), (0, all_texels(footprint, kind, &s)), "{s:?}");
        }
    }
}

/// The texel of a faulty block.
fn error(kind: Kind) -> [u16; 4] {
    match kind {
        Kind::Unorm16 => [65535, 0, 65535, 65535],
        Kind::Srgb8 => [255, 0, 255, 255],
        Kind::Float16 => [65535; 4],
    }
}

/// Blocks of all sorts: a fault of kind 2's list means no symbolic block, no fault means an acceptable one; in kinds 0 and 1 an HDR one is
/// 13 or 20 besides.
#[test]
fn faults_and_readings() {
    let mut r = Random(3);
    // flat and volume footprints; kinds 0 and 1, and kind 2
    let mut seen = [[[0u32; 21]; 2]; 2];
    for round in 0..ROUNDS {
        let footprint = any_footprint(&mut r);
        let block = match round % 4 {
            0 => r.bytes(),
            1 => block_of_any_mode(&mut r),
            2 => void_extent_block(&mut r, footprint),
            _ => {
                let s = any_symbolic_block(&mut r, footprint);
                let block = write(footprint, &s).unwrap();
                flip_bits(&mut r, block)
            }
        };
        let kind = Kind::ALL[round / 4 % 3];
        let number = fault(footprint, kind, &block);
        seen[is_volume(footprint) as usize][kind.takes_hdr() as usize][number as usize] += 1;
        let read = read(footprint, &block);
        let ldr_only = match &read {
            Ok(s) if s.hdr == 1 => {
                if s.mark == 1 {
                    13
                } else {
                    20
                }
            }
            _ => 0,
        };
        let expected = match &read {
            Err(fault) => *fault,
            Ok(_) if kind.takes_hdr() => 0,
            Ok(_) => ldr_only,
        };
        assert_eq!(number, expected);
        let (told, out) = shown(footprint, kind, &block);
        assert_eq!(told, number);
        match read {
            Ok(s) if number == 0 => {
                assert_eq!(refusal(footprint, &s), 0);
                assert_eq!(out, all_texels(footprint, kind, &s));
            }
            _ => assert!(out.chunks(4).all(|t| t == error(kind))),
        }
    }
    for (seen, number) in seen.iter().flat_map(|seen| [0, 11, 12, 13, 14, 15, 16, 17, 18, 19, 20].map(|n| (seen, n))) {
        assert!(seen[0][number] > 0, "fault {number} never seen: {seen:?}");
        assert_eq!(seen[1][number] > 0, number != 13 && number != 20, "fault {number} in kind 2: {seen:?}");
    }
}

/// A picture's sides.
fn size_of(r: &mut Random, footprint: usize) -> [usize; 3] {
    if is_volume(footprint) || r.once_in(3) {
        [0; 3].map(|_| 1 + r.below(14))
    } else {
        [1 + r.below(40), 1 + r.below(40), 1]
    }
}

/// An image or a volume is its blocks, cropped; of a flat footprint they are one layer thick.
#[test]
fn pictures() {
    let mut r = Random(4);
    let mut cut = [false; 3];
    for _ in 0..400 {
        let footprint = any_footprint(&mut r);
        let block = sides(footprint);
        let size @ [width, height, depth] = size_of(&mut r, footprint);
        for a in 0..3 {
            cut[a] |= size[a] % block[a] != 0 && size[a] > block[a];
        }
        let count: [usize; 3] = std::array::from_fn(|a| size[a].div_ceil(block[a]));
        let mut blocks = Vec::new();
        let (mut tally, mut wide) = (Tally::default(), Tally::default());
        for index in 0..count.iter().product() {
            let block = if r.once_in(3) {
                r.bytes()
            } else {
                write(footprint, &any_symbolic_block(&mut r, footprint)).unwrap()
            };
            for (tally, kind) in [(&mut tally, Kind::Srgb8), (&mut wide, Kind::Float16)] {
                let number = fault(footprint, kind, &block);
                if number != 0 {
                    tally.faulty += 1;
                    if tally.faulty == 1 {
                        (tally.first_index, tally.first_fault) = (index as u64, number);
                    }
                }
            }
            blocks.extend(block);
        }
        let len = 4 * width * height * depth;
        let (mut out, mut bytes, mut halves) = (vec![0; len], vec![0; len], vec![0; len]);
        assert_eq!(decode_volume_u16(footprint, size, &blocks, &mut out), tally);
        assert_eq!(decode_volume_u8(footprint, size, &blocks, &mut bytes), tally);
        assert_eq!(decode_volume_f16(footprint, size, &blocks, &mut halves), wide);
        for (i, at) in (0..len / 4).map(|i| [i % width, i / width % height, i / width / height]).enumerate() {
            let [x, y, z]: [usize; 3] = std::array::from_fn(|a| at[a] / block[a]);
            let index = (z * count[1] + y) * count[0] + x;
            let [x, y, z]: [usize; 3] = std::array::from_fn(|a| at[a] % block[a]);
            let inside = 4 * ((z * block[1] + y) * block[0] + x);
            let block: &[u8; 16] = blocks[16 * index..][..16].try_into().unwrap();
            let texel = |kind| -> [u16; 4] { shown(footprint, kind, block).1[inside..][..4].try_into().unwrap() };
            assert_eq!(out[4 * i..][..4], texel(Kind::Unorm16));
            assert_eq!(halves[4 * i..][..4], texel(Kind::Float16));
            assert_eq!(bytes[4 * i..][..4], texel(Kind::Srgb8).map(|n| n as u8));
        }
        if !is_volume(footprint) && depth == 1 {
            let (mut image, mut image_bytes, mut image_halves) = (vec![0; len], vec![0; len], vec![0; len]);
            assert_eq!(decode_image_u16(footprint, width, height, &blocks, &mut image), tally);
            assert_eq!(decode_image_u8(footprint, width, height, &blocks, &mut image_bytes), tally);
            assert_eq!(decode_image_f16(footprint, width, height, &blocks, &mut image_halves), wide);
            assert!((image, image_bytes, image_halves) == (out, bytes, halves));
        }
    }
    assert_eq!(cut, [true; 3], "edge blocks on every axis");
}

/// What is LDR shows in kind 2 the half floats of kind 0's numbers; an HDR void extent its colours.
#[test]
fn ldr_in_kind_2() {
    let mut r = Random(5);
    for _ in 0..ROUNDS / 10 {
        let footprint = any_footprint(&mut r);
        let block = write(footprint, &symbolic_block(&mut r, footprint)).unwrap();
        let halves: Vec<u16> = shown(footprint, Kind::Unorm16, &block).1.into_iter().map(hdr::unorm_half).collect();
        assert_eq!(shown(footprint, Kind::Float16, &block), (0, halves));
        let s = hdr_void_extent(&mut r, footprint);
        let (fault, out) = shown(footprint, Kind::Float16, &write(footprint, &s).unwrap());
        assert!(fault == 0 && out.chunks(4).all(|t| t == s.colours));
    }
}

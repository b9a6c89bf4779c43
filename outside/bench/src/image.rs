//! The image calls of ASTC against the reference's and, where asked, against Arm's codec, as a table.

use library::raw::{decode_image_float16, decode_image_srgb8, decode_image_unorm16};
use reference::random::{Random, block_of_any_mode, hdr_mode_block, mode_block, void_extent};
use reference::{FOOTPRINTS, Kind, SymbolicBlock, Tally, decode_image_f16, decode_image_u8, decode_image_u16, fault};

use crate::astcenc::Library;
use crate::{SEED, SIDE, in_turns, largest, median};

/// Blocks of the image.
fn count(footprint: usize) -> usize {
    let (w, h) = FOOTPRINTS[footprint];
    SIDE.div_ceil(w) * SIDE.div_ceil(h)
}

/// Sixteen bytes for each block of the image, by the block's index.
fn blocks_by(footprint: usize, block: impl FnMut(usize) -> [u8; 16]) -> Vec<u8> {
    (0..count(footprint)).flat_map(block).collect()
}

/// Blocks that the library wrote.
pub fn written(footprint: usize, count: usize, draw: impl Fn(&mut Random, usize) -> SymbolicBlock) -> Vec<u8> {
    let mut r = Random(SEED);
    let block = |index| {
        let mut block = [0; 16];
        let numbers = draw(&mut r, index).to_numbers();
        assert_eq!(library::raw::write_symbolic(footprint as u8, &numbers, &mut block), 0);
        block
    };
    (0..count).flat_map(block).collect()
}

/// LDR mode blocks of all sorts.
pub fn mode_blocks(footprint: usize) -> Vec<u8> {
    written(footprint, count(footprint), |r, _| mode_block(r, footprint))
}

/// LDR and HDR mode blocks in turn.
fn mixed_blocks(footprint: usize) -> Vec<u8> {
    let draw = |r: &mut Random, i| if i % 2 == 0 { mode_block(r, footprint) } else { hdr_mode_block(r, footprint) };
    written(footprint, count(footprint), draw)
}

fn solid_blocks(footprint: usize) -> Vec<u8> {
    written(footprint, count(footprint), |r, _| void_extent(r, footprint))
}

/// Blocks with a fault in kinds 0 and 1, random but for an even choice of block modes.
fn faulty_blocks(footprint: usize) -> Vec<u8> {
    let mut r = Random(SEED);
    blocks_by(footprint, |_| {
        loop {
            let block = block_of_any_mode(&mut r);
            if fault(footprint, Kind::Srgb8, &block) != 0 {
                return block;
            }
        }
    })
}

/// The stored photographs (`make_pictures`), side by side till the image is full.
fn pictures(footprint: usize) -> Vec<u8> {
    let file: &[u8] = match FOOTPRINTS[footprint] {
        (4, 4) => include_bytes!("../data/4x4.astc"),
        (6, 6) => include_bytes!("../data/6x6.astc"),
        (8, 8) => include_bytes!("../data/8x8.astc"),
        (12, 12) => include_bytes!("../data/12x12.astc"),
        _ => panic!("no picture is stored"),
    };
    let (stored, side) = (file[16..].as_chunks().0, FOOTPRINTS[footprint].0);
    let (across, n) = (SIDE.div_ceil(side), 384 / side);
    blocks_by(footprint, |index| stored[index / across % n * n + index % across % n])
}

type Draw = fn(usize) -> Vec<u8>;
type Ours<T> = fn(u8, u32, u32, &[u8], &mut [T], &mut [u64]) -> u8;
type Theirs<T> = fn(usize, usize, usize, &[u8], &mut [T]) -> Tally;

struct Calls<T> {
    kind: u8,
    ours: Ours<T>,
    theirs: Theirs<T>,
    /// Shows what Arm's codec does: half floats or bytes.
    shown: Ours<T>,
}

const UNORM16: Calls<u16> =
    Calls { kind: 0, ours: decode_image_unorm16, theirs: decode_image_u16, shown: decode_image_float16 };
const SRGB8: Calls<u8> =
    Calls { kind: 1, ours: decode_image_srgb8, theirs: decode_image_u8, shown: decode_image_srgb8 };
const FLOAT16: Calls<u16> =
    Calls { kind: 2, ours: decode_image_float16, theirs: decode_image_f16, shown: decode_image_float16 };

pub struct Table<'a> {
    pub rounds: usize,
    /// Rows that have this in their name.
    pub only: &'a str,
    pub arm: Option<Library>,
}

impl Table<'_> {
    /// A row of the table; answers the ratio of the medians and the median of the rounds' ratios.
    fn row<T: Copy + PartialEq + From<u8>>(
        &self, sort: &str, footprint: usize, draw: Draw, calls: Calls<T>,
    ) -> [f64; 2] {
        let Calls { kind, ours, theirs, shown } = calls;
        let (w, h) = FOOTPRINTS[footprint];
        let name = format!("{sort} {w}x{h} kind {kind}");
        if !name.contains(self.only) {
            return [0.0; 2];
        }
        let (blocks, side) = (draw(footprint), SIDE as u32);
        let [mut a, mut b, mut c] = [1, 2, 3].map(|n| vec![T::from(n); 4 * SIDE * SIDE]);
        let mut tally = [0; 3];

        // Arm's codec spoils a part only of some faulty blocks.
        let arm = self.arm.filter(|_| sort != "faulty").map(|arm| arm.decoder(FOOTPRINTS[footprint], SIDE, kind));
        if let Some(decode) = &arm {
            assert_eq!(shown(footprint as u8, side, side, &blocks, &mut a, &mut tally), 0);
            decode(&blocks, &mut c);
            assert!(a == c, "{name}: Arm's texels are others");
        }
        assert_eq!(ours(footprint as u8, side, side, &blocks, &mut a, &mut tally), 0);
        let told = theirs(footprint, SIDE, SIDE, &blocks, &mut b);
        assert!(a == b, "{name}: not the same texels");
        assert_eq!(tally, [told.faulty, told.first_index, told.first_fault as u64], "{name}");
        assert_eq!(told.faulty, if sort == "faulty" { blocks.len() as u64 / 16 } else { 0 }, "{name}");

        let mut library = || {
            ours(footprint as u8, side, side, &blocks, &mut a, &mut tally);
        };
        let mut reference = || {
            theirs(footprint, SIDE, SIDE, &blocks, &mut b);
        };
        let mut codec = || arm.as_ref().map_or((), |decode| decode(&blocks, &mut c));
        let mut calls: [&mut dyn FnMut(); 3] = [&mut library, &mut reference, &mut codec];
        let times = in_turns(self.rounds, &mut calls[..if arm.is_some() { 3 } else { 2 }]);
        let by_round = |i: usize| median(times[0].iter().zip(&times[i]).map(|(ours, theirs)| ours / theirs));
        let medians: Vec<f64> = times.iter().map(|times| median(times.iter().copied())).collect();
        let ratios = [medians[0] / medians[1], by_round(1)];
        print!("{name:24} {:8.2} {:9.2} {:8.2} {:8.2}", medians[0], medians[1], ratios[0], ratios[1]);
        print!(" {:8.0}", 1e3 / medians[0]);
        if arm.is_some() {
            print!(" {:8.2} {:8.2}", medians[2], by_round(2));
        }
        println!();
        ratios
    }

    /// Kinds 0 and 1.
    fn rows(&self, sort: &str, footprints: &[usize], draw: Draw) -> [f64; 2] {
        let ratios =
            footprints.iter().flat_map(|&f| [self.row(sort, f, draw, UNORM16), self.row(sort, f, draw, SRGB8)]);
        ratios.fold([0.0; 2], largest)
    }

    /// The largest ratios: of mode blocks and pictures, and of solid and faulty blocks.
    pub fn run(&self) -> [[f64; 2]; 2] {
        print!("{:24}  library reference    ratio by round frames/s", "ms for an image");
        println!("{}", if self.arm.is_some() { "    Arm's by round" } else { "" });
        let mut textures = self.rows("mode blocks", &[0, 4, 7, 13], mode_blocks);
        textures = largest(textures, self.rows("pictures", &[0, 4, 7, 13], pictures));
        for f in [4, 13] {
            textures = largest(textures, self.row("LDR and HDR", f, mixed_blocks, FLOAT16));
        }
        let plain = self.rows("solid", &[4, 13], solid_blocks);
        [textures, largest(plain, self.rows("faulty", &[4, 13], faulty_blocks))]
    }
}

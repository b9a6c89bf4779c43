//! 02, h: the volume calls in both readings against the reference; of flat footprints also against the library's own image calls, slice by slice.

use std::fmt;

use library::raw;
use reference::random::Random;
use reference::{
    ALL_FOOTPRINTS, Kind, Tally, decode_volume_f16, decode_volume_u8, decode_volume_u16, fault, is_volume, sides,
    strict_fault, texels, volume_refusal,
};

use crate::Run;
use crate::cases::{Case, Number, PLAIN, hex, lend, size_name};
use crate::make;
use crate::seen::Seen;

/// The volume calls.
#[derive(Clone)]
pub struct VolumeCase {
    pub footprint: u8,
    /// Width, height and depth.
    pub size: [u32; 3],
    pub blocks: Vec<u8>,
    pub out_len: usize,
    pub tally_len: usize,
}

/// A call of the library's: footprint, width, height, depth, blocks, texels, tally.
type Call<T> = fn(u8, u32, u32, u32, &[u8], &mut [T], &mut [u64]) -> u8;
type Decode<T> = fn(usize, [usize; 3], &[u8], &mut [T]) -> Tally;

/// A block of which every kind shows the error colour.
const RESERVED: [u8; 16] = [0; 16];

impl VolumeCase {
    /// 1, 3, 4, 5; 5 also where the tally is not of 3 numbers.
    pub fn refusal(&self) -> u8 {
        match volume_refusal(self.footprint as usize, self.size, self.blocks.len(), self.out_len) {
            0 if self.tally_len != 3 => 5,
            refusal => refusal,
        }
    }

    fn fault(&self, kind: Kind, strict: bool, block: &[u8; 16]) -> u8 {
        (if strict { strict_fault } else { fault })(self.footprint as usize, kind, block)
    }

    /// Each block's fault by itself: their count, the first one's index and its fault.
    pub fn tally(&self, kind: Kind, strict: bool) -> [u64; 3] {
        let faults: Vec<u8> =
            self.blocks.as_chunks::<16>().0.iter().map(|block| self.fault(kind, strict, block)).collect();
        let first = faults.iter().position(|&fault| fault != 0);
        let count = faults.iter().filter(|&&fault| fault != 0).count() as u64;
        first.map_or([0; 3], |b| [count, b as u64, faults[b] as u64])
    }

    /// One kind in one reading.
    fn shows<T: Number>(&self, kind: Kind, strict: bool, decode: Decode<T>, call: Call<T>) -> Option<String> {
        let VolumeCase { footprint, size: [width, height, depth], ref blocks, out_len, tally_len } = *self;
        let refusal = self.refusal();
        let (mut expected, mut told) = (Vec::new(), [0; 3]);
        if refusal == 0 {
            expected.resize(out_len, T::MARK);
            let not_canonical = |block: &[u8; 16]| strict && self.fault(kind, true, block) == 21;
            let shown: Vec<u8> = (blocks.as_chunks::<16>().0.iter())
                .flat_map(|block| if not_canonical(block) { RESERVED } else { *block })
                .collect();
            decode(footprint as usize, self.size.map(|side| side as usize), &shown, &mut expected);
            told = self.tally(kind, strict);
        }
        let what = format!("{} volume in {kind:?}", if strict { "strict" } else { "ordinary" });
        let wanted_tally = (tally_len == 3).then_some(&told[..]);
        let mut found = None;
        lend(tally_len, wanted_tally, None, &format!("tally of {what}"), 0, |tally| {
            let wanted = (refusal == 0).then_some(&expected[..]);
            found = lend(out_len, wanted, Some(width.max(1) as usize), &what, refusal, |out| {
                call(footprint, width, height, depth, blocks, out, tally)
            });
            0
        })
        .or(found)
    }

    /// Every layer of a flat footprint is the image call's.
    fn slices(&self) -> Option<String> {
        let VolumeCase { footprint, size: [width, height, depth], ref blocks, out_len, .. } = *self;
        if self.refusal() != 0 || is_volume(footprint as usize) {
            return None;
        }
        let (mut volume, mut tally) = (vec![0; out_len], [0; 3]);
        raw::decode_volume_unorm16(footprint, width, height, depth, blocks, &mut volume, &mut tally);
        let layers = blocks.chunks(blocks.len() / depth as usize).zip(volume.chunks(out_len / depth as usize));
        let mut faulty = 0;
        for (z, (blocks, layer)) in layers.enumerate() {
            let (mut image, mut told) = (vec![0; layer.len()], [0; 3]);
            let answer = raw::decode_image_unorm16(footprint, width, height, blocks, &mut image, &mut told);
            if answer != 0 || image != layer {
                return Some(format!("layer {z} is not the image call's, which answers {answer}"));
            }
            faulty += told[0];
        }
        (faulty != tally[0]).then(|| format!("{} faulty blocks, in the slices {faulty}", tally[0]))
    }

    /// The sizes that the library tells.
    fn sizes(&self) -> Option<String> {
        let VolumeCase { footprint, size: [width, height, depth], .. } = *self;
        let in_limits = [width, height, depth].iter().zip([16384, 16384, 2048]).all(|(&s, most)| s > 0 && s <= most);
        let known = (footprint as usize) < ALL_FOOTPRINTS;
        let numbers = if in_limits { 4 * width as u64 * height as u64 * depth as u64 } else { 0 };
        let (mut blocks, mut of_block) = (0, 0);
        if known {
            let sides = sides(footprint as usize).map(|side| side as u32);
            let count = |(&side, block): (&u32, u32)| side.div_ceil(block) as u64;
            blocks = if in_limits { self.size.iter().zip(sides).map(count).product() } else { 0 };
            of_block = 4 * texels(footprint as usize) as u32;
        }
        let told = (
            raw::volume_blocks(footprint, width, height, depth),
            raw::volume_numbers(width, height, depth),
            raw::block_numbers(footprint),
        );
        let expected = (blocks, numbers, of_block);
        (told != expected).then(|| format!("sizes {told:?}, expected {expected:?}"))
    }

    /// The part of an accepted volume from these blocks on, so many texels large.
    fn part(&self, from: [usize; 3], size: [u32; 3]) -> VolumeCase {
        let block = sides(self.footprint as usize);
        let counts = |size: [u32; 3]| -> [usize; 3] { std::array::from_fn(|a| (size[a] as usize).div_ceil(block[a])) };
        let ([across, down, _], [w, h, d]) = (counts(self.size), counts(size));
        let mut blocks = Vec::new();
        for (z, y) in (from[2]..from[2] + d).flat_map(|z| (from[1]..from[1] + h).map(move |y| (z, y))) {
            blocks.extend_from_slice(&self.blocks[16 * ((z * down + y) * across + from[0])..][..16 * w]);
        }
        let out_len = 4 * size.iter().map(|&side| side as usize).product::<usize>();
        VolumeCase { size, blocks, out_len, ..*self }
    }
}

impl Case for VolumeCase {
    fn difference(&self) -> Option<String> {
        let kinds = |strict: bool| {
            let [unorm16, float16]: [Call<u16>; 2] = match strict {
                false => [raw::decode_volume_unorm16, raw::decode_volume_float16],
                true => [raw::strict_decode_volume_unorm16, raw::strict_decode_volume_float16],
            };
            let srgb8: Call<u8> = if strict { raw::strict_decode_volume_srgb8 } else { raw::decode_volume_srgb8 };
            self.shows(Kind::Unorm16, strict, decode_volume_u16, unorm16)
                .or_else(|| self.shows(Kind::Srgb8, strict, decode_volume_u8, srgb8))
                .or_else(|| self.shows(Kind::Float16, strict, decode_volume_f16, float16))
        };
        kinds(false).or_else(|| kinds(true)).or_else(|| self.slices()).or_else(|| self.sizes())
    }

    fn smaller(&self) -> Vec<VolumeCase> {
        let mut cases = Vec::new();
        if self.refusal() != 0 {
            for footprint in 0..self.footprint.min(ALL_FOOTPRINTS as u8) {
                cases.push(VolumeCase { footprint, ..self.clone() });
            }
            for axis in (0..3).filter(|&axis| self.size[axis] > 0) {
                let mut case = self.clone();
                case.size[axis] /= 2;
                cases.push(case);
            }
            for (len, out_len) in [(self.blocks.len() / 2, self.out_len), (self.blocks.len(), self.out_len / 2)] {
                if (len, out_len) != (self.blocks.len(), self.out_len) {
                    cases.push(VolumeCase { blocks: self.blocks[..len].to_vec(), out_len, ..*self });
                }
            }
            if self.tally_len != 3 {
                cases.push(VolumeCase { tally_len: 3, ..self.clone() });
            }
            return cases;
        }
        let block = sides(self.footprint as usize).map(|side| side as u32);
        for axis in 0..3 {
            let side = self.size[axis];
            for less in [1, side / 2, side - 1].into_iter().filter(|less| (1..side).contains(less)) {
                let mut size = self.size;
                size[axis] = less;
                cases.push(self.part([0; 3], size));
            }
            if side > block[axis] {
                let (mut from, mut size) = ([0; 3], self.size);
                (from[axis], size[axis]) = (1, side - block[axis]);
                cases.push(self.part(from, size));
            }
        }
        for at in (0..self.blocks.len()).step_by(16) {
            if self.blocks[at..at + 16] != PLAIN {
                let mut case = self.clone();
                case.blocks[at..at + 16].copy_from_slice(&PLAIN);
                cases.push(case);
            }
        }
        cases
    }
}

impl fmt::Display for VolumeCase {
    fn fmt(&self, f: &mut fmt::Formatter) -> fmt::Result {
        let VolumeCase { footprint, size: [w, h, d], ref blocks, out_len, tally_len } = *self;
        let name = size_name(footprint);
        write!(f, "volume call, {name}, {w} by {h} by {d}, {} block bytes, ", blocks.len())?;
        writeln!(f, "out length {out_len}, tally length {tally_len}")?;
        for (index, block) in blocks.chunks(16).enumerate().take(64) {
            let faults = match block.try_into() {
                Ok(block) if (footprint as usize) < ALL_FOOTPRINTS => {
                    [(Kind::Unorm16, false), (Kind::Float16, false), (Kind::Float16, true)]
                        .map(|(kind, strict)| self.fault(kind, strict, block))
                }
                _ => [0; 3],
            };
            let [fault, hdr, strict] = faults;
            writeln!(f, "block {index}: {} fault {fault}, in kind 2 {hdr}, there strict {strict}", hex(block))?;
        }
        Ok(())
    }
}

/// What has to occur.
pub fn require(seen: &mut Seen) {
    let faults = || [0, 11, 12, 13, 14, 15, 16, 17, 18, 19, 20].into_iter();
    seen.require("volume call, refusal", [0, 1, 3, 4, 5]);
    seen.require("volume call, tally not of 3 numbers, refusal", [1, 3, 4, 5]);
    seen.require(
        "volume call refused by one side alone: 0 width, 1 height, 2 depth, plus 10 where it is too large",
        [0, 1, 2, 10, 11, 12],
    );
    seen.require("volume call, footprint", 0..ALL_FOOTPRINTS as u32);
    seen.require("volume of a volume footprint, edge blocks on axis", 0..3);
    seen.require("volume of a volume footprint, several blocks on axis", 0..3);
    seen.require("volume, a side of 16384, a depth of 2048: axis", 0..3);
    seen.require("volume of a flat footprint, several layers", [1]);
    seen.require("volume, first fault in kinds 0 and 1", faults());
    seen.require("volume, first fault in kind 2", faults().filter(|n| ![13, 20].contains(n)));
    seen.require("strict volume, first fault in kinds 0 and 1", faults().chain([21]));
    seen.require("strict volume, first fault in kind 2", faults().filter(|n| ![13, 20].contains(n)).chain([21]));
    seen.require("volume, first faulty block: 0 in the first layer of blocks, 1 behind it", 0..2);
}

fn one(run: &mut Run, case: VolumeCase) {
    let VolumeCase { footprint, size, .. } = case;
    let refusal = case.refusal();
    run.seen.count("volume call, refusal", refusal as u32);
    if case.tally_len != 3 {
        run.seen.count("volume call, tally not of 3 numbers, refusal", refusal as u32);
    }
    if refusal == 3 {
        let bad: Vec<usize> = (0..3).filter(|&a| size[a] == 0 || size[a] > [16384, 16384, 2048][a]).collect();
        if let [axis] = bad[..] {
            let sort =
                "volume call refused by one side alone: 0 width, 1 height, 2 depth, plus 10 where it is too large";
            run.seen.count(sort, axis as u32 + if size[axis] == 0 { 0 } else { 10 });
        }
    }
    if refusal == 0 {
        let block = sides(footprint as usize).map(|side| side as u32);
        run.seen.count("volume call, footprint", footprint as u32);
        for axis in 0..3 {
            if is_volume(footprint as usize) && size[axis] > block[axis] {
                run.seen.count("volume of a volume footprint, several blocks on axis", axis as u32);
                if size[axis] % block[axis] != 0 {
                    run.seen.count("volume of a volume footprint, edge blocks on axis", axis as u32);
                }
            }
            if size[axis] == [16384, 16384, 2048][axis] {
                run.seen.count("volume, a side of 16384, a depth of 2048: axis", axis as u32);
            }
        }
        if !is_volume(footprint as usize) && size[2] > 1 {
            run.seen.count("volume of a flat footprint, several layers", 1);
        }
        for (kind, strict, sort) in [
            (Kind::Srgb8, false, "volume, first fault in kinds 0 and 1"),
            (Kind::Float16, false, "volume, first fault in kind 2"),
            (Kind::Srgb8, true, "strict volume, first fault in kinds 0 and 1"),
            (Kind::Float16, true, "strict volume, first fault in kind 2"),
        ] {
            let [faulty, first, fault] = case.tally(kind, strict);
            run.seen.count(sort, fault as u32);
            if faulty > 0 {
                let layer = size[0].div_ceil(block[0]) * size[1].div_ceil(block[1]);
                let sort = "volume, first faulty block: 0 in the first layer of blocks, 1 behind it";
                run.seen.count(sort, (first >= layer as u64) as u32);
            }
        }
    }
    run.case(case);
}

/// The stored volumes of astcenc against the library.
fn vectors(run: &mut Run) {
    let mut agree = 0;
    for volume in vectors::volume::stored() {
        let (f, [w, h, d], blocks) = (volume.footprint, volume.size, volume.blocks);
        let len = volume.numbers();
        let (mut numbers, mut bytes, mut halves) = (vec![0; len], vec![0; len], vec![0; len]);
        let mut tally = [[9; 3]; 3];
        let answers = [
            raw::decode_volume_unorm16(f, w, h, d, blocks, &mut numbers, &mut tally[0]),
            raw::decode_volume_srgb8(f, w, h, d, blocks, &mut bytes, &mut tally[1]),
            raw::decode_volume_float16(f, w, h, d, blocks, &mut halves, &mut tally[2]),
        ];
        if answers == [0; 3] && tally == [[0; 3]; 3] && volume.shows(&numbers, &bytes, &halves) {
            agree += 1;
        } else {
            run.failed += 1;
            println!("FAILED: a volume of astcenc, {}, {w} by {h} by {d}, answers {answers:?}", size_name(f));
        }
    }
    run.passed += agree;
    println!("volumes of astcenc agree: {agree}");
}

pub fn run(run: &mut Run, r: &mut Random, count: u64) {
    vectors(run);
    for case in make::volume_edges(r) {
        one(run, case);
    }
    for _ in 0..count {
        let case = if r.once_in(4) { make::refused_volume(r) } else { make::volume(r) };
        one(run, case);
    }
}

//! 02, b: the strict calls and the canonical form against the reference, on families of blocks that read as one symbolic block.

use std::collections::BTreeSet;
use std::fmt;

use library::raw;
use reference::random::{Random, fill_numbers, loose_block, one_partition, spare_edges, twin, with_mode};
use reference::tables::Grid;
use reference::{
    ALL_FOOTPRINTS, Kind, NUMBERS, block_refusal, canonical, decode_f16, decode_image_f16, decode_image_u8,
    decode_image_u16, decode_u8, decode_u16, fault, image_refusal, is_volume, read, read_refusal, read_spare, refusal,
    strict_fault, texels, write,
};

use crate::Run;
use crate::cases::{Case, lend};
use crate::make;
use crate::seen::Seen;

/// A block of which every kind shows the error colour.
const RESERVED: [u8; 16] = [0; 16];

#[derive(Clone)]
struct StrictBlock {
    footprint: u8,
    block: Vec<u8>,
    out_len: usize,
    numbers_len: usize,
}

impl StrictBlock {
    fn whole(&self) -> Option<&[u8; 16]> {
        ((self.footprint as usize) < ALL_FOOTPRINTS).then(|| self.block.as_slice().try_into().ok()).flatten()
    }

    /// The texels of a kind in 16 bits, and what is told.
    fn texels(&self, kind: Kind) -> (u8, Vec<u16>) {
        let f = self.footprint as usize;
        match block_refusal(f, self.block.len(), self.out_len) {
            0 => {
                let block = self.whole().expect("sixteen bytes");
                let number = strict_fault(f, kind, block);
                let shown = if number == 21 { &RESERVED } else { block };
                let (mut words, mut bytes) = (vec![0; self.out_len], vec![0; self.out_len]);
                match kind {
                    Kind::Unorm16 => decode_u16(f, shown, &mut words),
                    Kind::Float16 => decode_f16(f, shown, &mut words),
                    Kind::Srgb8 => {
                        let told = decode_u8(f, shown, &mut bytes);
                        words = bytes.iter().map(|&b| b as u16).collect();
                        told
                    }
                };
                (number, words)
            }
            refusal => (refusal, Vec::new()),
        }
    }

    fn shows(&self) -> Option<String> {
        let refused = block_refusal(self.footprint as usize, self.block.len(), self.out_len) != 0;
        for kind in Kind::ALL {
            let (number, words) = self.texels(kind);
            let what = format!("strict reading in {kind:?}");
            let difference = if kind == Kind::Srgb8 {
                let bytes: Vec<u8> = words.iter().map(|&n| n as u8).collect();
                lend(self.out_len, (!refused).then_some(&bytes[..]), None, &what, number, |out| {
                    raw::strict_decode_block_srgb8(self.footprint, &self.block, out)
                })
            } else {
                lend(self.out_len, (!refused).then_some(&words[..]), None, &what, number, |out| match kind {
                    Kind::Unorm16 => raw::strict_decode_block_unorm16(self.footprint, &self.block, out),
                    _ => raw::strict_decode_block_float16(self.footprint, &self.block, out),
                })
            };
            if difference.is_some() {
                return difference;
            }
        }
        None
    }

    fn reads(&self) -> Option<String> {
        let f = self.footprint as usize;
        let expected = match read_refusal(f, self.block.len()) {
            0 => {
                let block = self.whole().expect("sixteen bytes");
                match strict_fault(f, Kind::Float16, block) {
                    0 => read_spare(f, block),
                    fault => Err(fault),
                }
            }
            refusal => Err(refusal),
        };
        let (mut answer, numbers, spare) = match expected {
            Ok((s, spare)) => (0, s.to_numbers(), spare.to_numbers()),
            Err(number) => (number, [0; NUMBERS], [0; 2]),
        };
        let room = self.numbers_len == NUMBERS;
        if !room && read_refusal(f, self.block.len()) == 0 {
            answer = 5;
        }
        let mut told_spare = [9; 2];
        let difference =
            lend(self.numbers_len, room.then_some(&numbers[..]), None, "strict reading of a sheet", answer, |out| {
                raw::strict_read_symbolic(self.footprint, &self.block, out, &mut told_spare)
            });
        let wanted = if room { spare } else { [9; 2] };
        difference.or_else(|| (told_spare != wanted).then(|| format!("spare bits {told_spare:?}, expected {wanted:?}")))
    }

    /// Its canonical form, in a buffer of `numbers_len` bytes, 107 standing for sixteen.
    fn rewrites(&self) -> Option<String> {
        let f = self.footprint as usize;
        let len = if self.numbers_len == NUMBERS { 16 } else { self.numbers_len };
        let (number, bytes) = match read_refusal(f, self.block.len()) {
            0 if len != 16 => (5, None),
            0 => {
                let block = self.whole().expect("sixteen bytes");
                (fault(f, Kind::Float16, block), Some(canonical(f, block).unwrap_or(*block)))
            }
            refusal => (refusal, None),
        };
        lend(len, bytes.as_ref().map(|b| &b[..]), None, "canonical form", number, |out| {
            raw::canonical_block(self.footprint, &self.block, out)
        })
    }
}

impl Case for StrictBlock {
    fn difference(&self) -> Option<String> {
        self.shows().or_else(|| self.reads()).or_else(|| self.rewrites())
    }

    fn smaller(&self) -> Vec<StrictBlock> {
        Vec::new()
    }
}

impl fmt::Display for StrictBlock {
    fn fmt(&self, f: &mut fmt::Formatter) -> fmt::Result {
        let StrictBlock { footprint, ref block, out_len, numbers_len } = *self;
        writeln!(f, "strict, footprint {footprint}, room for {out_len} and {numbers_len}, {block:02X?}")
    }
}

#[derive(Clone)]
struct StrictImage {
    footprint: u8,
    width: u32,
    height: u32,
    blocks: Vec<u8>,
    out_len: usize,
    tally_len: usize,
}

impl StrictImage {
    fn faults(&self, by: impl Fn(&[u8; 16]) -> u8) -> [u64; 3] {
        let list: Vec<u8> = self.blocks.as_chunks::<16>().0.iter().map(by).collect();
        let first = list.iter().position(|&fault| fault != 0);
        first.map_or([0; 3], |b| [list.iter().filter(|&&n| n != 0).count() as u64, b as u64, list[b] as u64])
    }

    fn told(&self, refusal: u8, tally: [u64; 3]) -> Vec<u64> {
        match (self.tally_len, refusal) {
            (3, 0) => tally.to_vec(),
            (3, _) => vec![0; 3],
            (n, _) => vec![9; n],
        }
    }

    fn shows(&self, kind: Kind) -> Option<String> {
        let StrictImage { footprint, width, height, ref blocks, out_len, tally_len } = *self;
        let f = footprint as usize;
        let refusal = match image_refusal(f, width, height, blocks.len(), out_len) {
            0 if tally_len != 3 => 5,
            refusal => refusal,
        };
        let (mut words, mut bytes) = (Vec::new(), Vec::new());
        let mut tally = [0; 3];
        if refusal == 0 {
            words.resize(out_len, 0);
            bytes.resize(out_len, 0);
            tally = self.faults(|block| strict_fault(f, kind, block));
            let shown: Vec<u8> = blocks
                .as_chunks::<16>()
                .0
                .iter()
                .flat_map(|block| if strict_fault(f, kind, block) == 21 { RESERVED } else { *block })
                .collect();
            let (w, h) = (width as usize, height as usize);
            match kind {
                Kind::Unorm16 => decode_image_u16(f, w, h, &shown, &mut words),
                Kind::Float16 => decode_image_f16(f, w, h, &shown, &mut words),
                Kind::Srgb8 => decode_image_u8(f, w, h, &shown, &mut bytes),
            };
        }
        let mut given = vec![9; tally_len];
        let what = format!("strict image in {kind:?}");
        let row = Some(width as usize);
        let difference = if kind == Kind::Srgb8 {
            lend(out_len, (refusal == 0).then_some(&bytes[..]), row, &what, refusal, |out| {
                raw::strict_decode_image_srgb8(footprint, width, height, blocks, out, &mut given)
            })
        } else {
            lend(out_len, (refusal == 0).then_some(&words[..]), row, &what, refusal, |out| match kind {
                Kind::Unorm16 => raw::strict_decode_image_unorm16(footprint, width, height, blocks, out, &mut given),
                _ => raw::strict_decode_image_float16(footprint, width, height, blocks, out, &mut given),
            })
        };
        let wanted = self.told(refusal, tally);
        difference.or_else(|| (given != wanted).then(|| format!("{what}: tally {given:?}, expected {wanted:?}")))
    }

    /// Every block in its canonical form, in a lent buffer and in place.
    fn rewrites(&self) -> Option<String> {
        let StrictImage { footprint, width, height, ref blocks, out_len, tally_len } = *self;
        let f = footprint as usize;
        let texels = 4 * width as usize * height as usize;
        let room = if out_len == texels { blocks.len() } else { out_len };
        let in_place = match image_refusal(f, width, height, blocks.len(), texels) {
            0 if tally_len != 3 => 5,
            refusal => refusal,
        };
        let refusal = if in_place == 0 && room != blocks.len() { 5 } else { in_place };
        let (mut wanted, mut tally) = (Vec::new(), [0; 3]);
        if in_place == 0 {
            tally = self.faults(|block| fault(f, Kind::Float16, block));
            wanted = blocks.as_chunks::<16>().0.iter().flat_map(|b| canonical(f, b).unwrap_or(*b)).collect();
        }
        let mut given = vec![9; tally_len];
        let difference = lend(room, (refusal == 0).then_some(&wanted[..]), None, "canonical image", refusal, |out| {
            raw::canonical_image(footprint, width, height, blocks, out, &mut given)
        });
        if difference.is_some() || given != self.told(refusal, tally) {
            return difference.or(Some(format!("canonical image: tally {given:?}")));
        }
        let (mut same, mut given) = (blocks.clone(), vec![9; tally_len]);
        let answer = raw::canonical_in_place(footprint, width, height, &mut same, &mut given);
        let wanted = if in_place == 0 { &wanted } else { blocks };
        (answer != in_place || same != *wanted || given != self.told(in_place, tally))
            .then(|| format!("canonical image in place answers {answer}, expected {in_place}; tally {given:?}"))
    }
}

impl Case for StrictImage {
    fn difference(&self) -> Option<String> {
        Kind::ALL.into_iter().find_map(|kind| self.shows(kind)).or_else(|| self.rewrites())
    }

    fn smaller(&self) -> Vec<StrictImage> {
        Vec::new()
    }
}

impl fmt::Display for StrictImage {
    fn fmt(&self, f: &mut fmt::Formatter) -> fmt::Result {
        let StrictImage { footprint, width, height, ref blocks, out_len, tally_len } = *self;
        writeln!(f, "strict image, footprint {footprint}, {width} by {height}, room for {out_len} and {tally_len}")?;
        writeln!(f, "{} bytes {:02X?}", blocks.len(), &blocks[..blocks.len().min(256)])
    }
}

/// What has to occur.
pub fn require(seen: &mut Seen) {
    seen.require("strict reading, fault in kinds 0 and 1", [0, 11, 12, 13, 14, 15, 16, 17, 18, 19, 20, 21]);
    seen.require("strict reading, fault in kind 2", [0, 11, 12, 14, 15, 16, 17, 18, 19, 21]);
    seen.require("strict block call, refusal", [0, 1, 4, 5]);
    seen.require("strict image call, refusal", [0, 1, 3, 4, 5]);
    seen.require("strict image, first fault in kind 2", [0, 11, 12, 14, 15, 16, 17, 18, 19, 21]);
    seen.require("a family of blocks with one sheet, HDR mark", 0..2);
    seen.require(NOT_CANONICAL, 0..5);
    seen.require(
        "strict reading of a volume's block, fault in kinds 0 and 1",
        [0, 11, 12, 13, 14, 15, 16, 17, 18, 19, 20, 21],
    );
    seen.require("strict reading of a volume's block, fault in kind 2", [0, 11, 12, 14, 15, 16, 17, 18, 19, 21]);
    seen.require("a family of blocks with one sheet, footprint", 0..ALL_FOOTPRINTS as u32);
    seen.require("a family of blocks with two block modes, range", 0..6);
}

const NOT_CANONICAL: &str = "not canonical: 0 by a spare bit alone, 1 by a code alone, 2 by both, 3 by the block mode alone, 4 by it and others";

fn block(run: &mut Run, footprint: usize, block: [u8; 16]) {
    for (kind, flat, volume) in [
        (
            Kind::Srgb8,
            "strict reading, fault in kinds 0 and 1",
            "strict reading of a volume's block, fault in kinds 0 and 1",
        ),
        (Kind::Float16, "strict reading, fault in kind 2", "strict reading of a volume's block, fault in kind 2"),
    ] {
        let sort = if is_volume(footprint) { volume } else { flat };
        run.seen.count(sort, strict_fault(footprint, kind, &block) as u32);
    }
    if let Some(own) = canonical(footprint, &block).filter(|own| *own != block) {
        let (_, spare) = read_spare(footprint, &block).expect("a block without fault");
        let clear = spare_cleared(footprint, &block);
        let mode = |block: [u8; 16]| (u128::from_le_bytes(block) & 2047) as usize;
        let sort = if mode(block) != mode(own) {
            3 + (with_mode(block, mode(own)) != own) as u32
        } else if !spare.set {
            1
        } else {
            2 * (clear != own) as u32
        };
        run.seen.count(NOT_CANONICAL, sort);
    }
    run.seen.count("strict block call, refusal", 0);
    let out_len = 4 * texels(footprint);
    run.case(StrictBlock { footprint: footprint as u8, block: block.to_vec(), out_len, numbers_len: NUMBERS });
}

/// The block with its spare bits clear.
fn spare_cleared(footprint: usize, block: &[u8; 16]) -> [u8; 16] {
    let edges = spare_edges(footprint, *block);
    let all = edges.iter().fold(0, |all, edge| all | u128::from_le_bytes(*edge));
    let none = edges.iter().fold(u128::MAX, |none, edge| none & u128::from_le_bytes(*edge));
    (u128::from_le_bytes(*block) & !(all & !none)).to_le_bytes()
}

/// Blocks that read as one symbolic block: the writer's, others with larger codes in whole and cut groups, spare bits set, and the larger of two
/// block modes. Exactly one of them passes the strict reading, and it is the writer's.
fn family(run: &mut Run, r: &mut Random, footprint: usize, own: [u8; 16]) {
    let s = read(footprint, &own).expect("what was written");
    let mut blocks = BTreeSet::from([own]);
    for _ in 0..12 {
        let loose = loose_block(r, footprint, &s);
        blocks.insert(loose);
        blocks.extend(spare_edges(footprint, loose));
        blocks.insert(spare_cleared(footprint, &loose));
    }
    blocks.extend(spare_edges(footprint, own));
    let twins: Vec<[u8; 16]> = blocks.iter().filter_map(|&block| twin(footprint, block)).collect();
    blocks.extend(&twins);
    run.seen.count("a family of blocks with one sheet, HDR mark", s.hdr as u32);
    run.seen.count("a family of blocks with one sheet, footprint", footprint as u32);
    if !twins.is_empty() {
        run.seen.count("a family of blocks with two block modes, range", s.range as u32);
    }
    let mut passing = Vec::new();
    for member in &blocks {
        assert_eq!(read(footprint, member), Ok(s.clone()), "a family reads as one sheet");
        let mut numbers = [0; NUMBERS];
        if raw::strict_read_symbolic(footprint as u8, member, &mut numbers, &mut [0; 2]) == 0 {
            passing.push(*member);
        }
    }
    if passing == [own] {
        run.passed += 1;
    } else {
        run.failed += 1;
        println!("FAILED: of a family at footprint {footprint} these pass: {passing:02X?}, written {own:02X?}");
    }
    for member in blocks {
        block(run, footprint, member);
    }
}

/// A family of each setting that has two block modes, at each footprint that has it.
fn two_modes(run: &mut Run, r: &mut Random) {
    for (f, range, turn) in (21..ALL_FOOTPRINTS).flat_map(|f| (0..18).map(move |n| (f, n / 3, n as usize % 3))) {
        let mut sides = [2; 3];
        sides[turn] = 6;
        let [width, height, depth] = sides;
        let mut s = one_partition(Grid { width, height, depth, range, planes: 1 });
        if refusal(f, &s) == 0 {
            fill_numbers(r, &mut s);
            family(run, r, f, write(f, &s).expect("acceptable"));
        }
    }
}

pub fn run(run: &mut Run, r: &mut Random, count: u64) {
    two_modes(run, r);
    for i in 0..count {
        let case = make::block(r);
        if let Some(whole) = case.whole() {
            block(run, case.footprint as usize, *whole);
        }
        let case = make::symbolic(r);
        if let (Some(s), true) = (case.whole(), (case.footprint as usize) < ALL_FOOTPRINTS)
            && i % 20 == 0
            && let Ok(own) = write(case.footprint as usize, &s)
        {
            family(run, r, case.footprint as usize, own);
        }
        if i % 10 == 0 {
            let case = make::refused_block(r);
            let refusal = block_refusal(case.footprint as usize, case.block.len(), case.out_len);
            run.seen.count("strict block call, refusal", refusal as u32);
            let (footprint, out_len, numbers_len) = (case.footprint, case.out_len, case.numbers_len);
            run.case(StrictBlock { footprint, block: case.block, out_len, numbers_len });
        }
        if i % 20 == 0 {
            let case = if r.once_in(4) { make::refused_image(r) } else { make::image(r) };
            let refusal = case.refusal();
            run.seen.count("strict image call, refusal", refusal as u32);
            let (footprint, width, height) = (case.footprint, case.width, case.height);
            let image = StrictImage {
                footprint,
                width,
                height,
                blocks: case.blocks,
                out_len: case.out_len,
                tally_len: case.tally_len,
            };
            if refusal == 0 {
                let first = image.faults(|block| strict_fault(footprint as usize, Kind::Float16, block))[2];
                run.seen.count("strict image, first fault in kind 2", first as u32);
            }
            run.case(image);
        }
    }
}

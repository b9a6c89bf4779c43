//! The faults of an image, block by block, in both readings, and sizes: the library's calls against the reference, and against the library's own
//! image calls.

use std::fmt;

use library::raw;
use reference::random::Random;
use reference::{ALL_FOOTPRINTS, FOOTPRINTS, Kind, fault, strict_fault, texels, view_refusal};

use crate::Run;
use crate::cases::{Case, ImageCase, lend};
use crate::make;
use crate::seen::Seen;

#[derive(Clone)]
struct FaultsCase {
    strict: bool,
    footprint: u8,
    kind: u8,
    width: u32,
    height: u32,
    blocks: Vec<u8>,
    faults_len: usize,
    tally_len: usize,
}

impl FaultsCase {
    /// 1, 2, 3, 4, 5.
    fn refusal(&self) -> u8 {
        let places = self.faults_len == self.blocks.len() / 16 && self.tally_len == 3;
        match view_refusal(self.footprint as usize, self.width, self.height, self.blocks.len()) {
            1 => 1,
            _ if self.kind > 2 => 2,
            0 if !places => 5,
            refusal => refusal,
        }
    }

    /// Each block's fault by itself, and the three numbers told.
    fn expected(&self, kind: Kind) -> (Vec<u8>, [u64; 3]) {
        let fault = if self.strict { strict_fault } else { fault };
        let blocks = self.blocks.as_chunks::<16>().0;
        let list: Vec<u8> = blocks.iter().map(|block| fault(self.footprint as usize, kind, block)).collect();
        let first = list.iter().position(|&fault| fault != 0);
        let count = list.iter().filter(|&&fault| fault != 0).count();
        let told = first.map_or([0; 3], |b| [count as u64, b as u64, list[b] as u64]);
        (list, told)
    }

    /// The tally of the image call of the same reading.
    fn image_tally(&self, kind: Kind) -> [u64; 3] {
        let FaultsCase { strict, footprint, width, height, ref blocks, .. } = *self;
        let (places, mut tally) = (4 * (width * height) as usize, [7; 3]);
        let answer = if kind == Kind::Srgb8 {
            let call = if strict { raw::strict_decode_image_srgb8 } else { raw::decode_image_srgb8 };
            call(footprint, width, height, blocks, &mut vec![0; places], &mut tally)
        } else {
            let call = match (kind, strict) {
                (Kind::Unorm16, false) => raw::decode_image_unorm16,
                (Kind::Unorm16, true) => raw::strict_decode_image_unorm16,
                (_, false) => raw::decode_image_float16,
                (_, true) => raw::strict_decode_image_float16,
            };
            call(footprint, width, height, blocks, &mut vec![0; places], &mut tally)
        };
        assert_eq!(answer, 0);
        tally
    }

    /// A refusal leaves the list as it was; a tally not of 3 numbers is left as it was, another told, zeros with a refusal.
    fn lists(&self) -> Option<String> {
        let FaultsCase { strict, footprint, kind, width, height, ref blocks, faults_len, tally_len } = *self;
        let refusal = self.refusal();
        let wanted = Kind::of(kind).filter(|_| refusal == 0).map(|kind| self.expected(kind));
        let (list, told) = wanted.map_or((None, [0; 3]), |(list, told)| (Some(list), told));
        let call = if strict { raw::strict_image_faults } else { raw::image_faults };
        let what = if strict { "strict faults of an image" } else { "faults of an image" };
        let (wanted_tally, mut found) = ((tally_len == 3).then_some(&told[..]), None);
        let tally = lend(tally_len, wanted_tally, None, &format!("{what}, tally"), 0, |tally| {
            found = lend(faults_len, list.as_deref(), None, what, refusal, |out| {
                call(footprint, kind, width, height, blocks, out, tally)
            });
            0
        });
        if found.is_some() || tally.is_some() {
            return found.or(tally);
        }
        (refusal == 0 && self.image_tally(Kind::of(kind)?) != told)
            .then(|| format!("{what}: the image call tells another tally"))
    }

    fn sizes(&self) -> Option<String> {
        let FaultsCase { footprint, width, height, ref blocks, .. } = *self;
        let refused = view_refusal(footprint as usize, width, height, blocks.len());
        let count = raw::image_blocks(footprint, width, height);
        if (refused == 0 && count != blocks.len() as u64 / 16) || (matches!(refused, 1 | 3) && count != 0) {
            return Some(format!("count of blocks {count}"));
        }
        let sides = [width, height].iter().all(|side| (1..=16384).contains(side));
        let numbers = if sides { 4 * width as u64 * height as u64 } else { 0 };
        let known = (footprint as usize) < ALL_FOOTPRINTS;
        let texels = if known { 4 * texels(footprint as usize) } else { 0 };
        let told = (raw::image_numbers(width, height), raw::block_numbers(footprint) as usize);
        (told != (numbers, texels)).then(|| format!("sizes {told:?}, expected {:?}", (numbers, texels)))
    }

    /// Whether an accepted picture's right or lower edge cuts this block.
    fn cut(&self, block: usize) -> bool {
        let (w, h) = FOOTPRINTS[self.footprint as usize];
        let (width, height) = (self.width as usize, self.height as usize);
        let across = width.div_ceil(w);
        (block % across + 1) * w > width || (block / across + 1) * h > height
    }
}

impl Case for FaultsCase {
    fn difference(&self) -> Option<String> {
        self.lists().or_else(|| self.sizes())
    }

    fn smaller(&self) -> Vec<FaultsCase> {
        Vec::new()
    }
}

impl fmt::Display for FaultsCase {
    fn fmt(&self, f: &mut fmt::Formatter) -> fmt::Result {
        let FaultsCase { strict, footprint, kind, width, height, faults_len, tally_len, .. } = *self;
        let reading = if strict { "strict faults" } else { "faults" };
        write!(f, "{reading}, footprint {footprint}, kind {kind}, {width} by {height}, ")?;
        writeln!(f, "room for {faults_len} faults, {tally_len} numbers of a tally")?;
        writeln!(f, "{} bytes {:02X?}", self.blocks.len(), &self.blocks[..self.blocks.len().min(256)])
    }
}

/// What is counted, in the ordinary and in the strict reading.
const REFUSAL: [&str; 2] = ["faults call, refusal", "strict faults call, refusal"];
const TALLY: [&str; 2] =
    ["faults call, refusal with a tally not of 3 numbers", "strict faults call, refusal with a tally not of 3 numbers"];
const LENGTHS: [&str; 2] = [
    "faults call refused by 5: 1 by the list's length, 2 by the tally's, 3 by both",
    "strict faults call refused by 5: 1 by the list's length, 2 by the tally's, 3 by both",
];
const KIND: [&str; 2] = [
    "faults call of a kind above 2, refusal of the same call in kind 0",
    "strict faults call of a kind above 2, refusal of the same call in kind 0",
];
const FAULT: [&str; 2] = [
    "faults call, 100 times the kind and a block's fault",
    "strict faults call, 100 times the kind and a block's fault",
];
const CUT_FAULT: [&str; 2] = [
    "faults call, fault of a block that the picture's edge cuts",
    "strict faults call, fault of a block that the picture's edge cuts",
];
const FIRST: [&str; 2] = ["faults call, first fault", "strict faults call, first fault"];
const FOOTPRINT: [&str; 2] = ["faults call, footprint", "strict faults call, footprint"];
const LARGE: [&str; 2] = ["faults call, side of 16384, kind", "strict faults call, side of 16384, kind"];

/// What has to occur.
pub fn require(seen: &mut Seen) {
    for strict in 0..2 {
        let faults = || [0].into_iter().chain(11..21 + strict as u32);
        seen.require(REFUSAL[strict], 0..6);
        seen.require(TALLY[strict], 1..6);
        seen.require(LENGTHS[strict], 1..4);
        seen.require(KIND[strict], [0, 1, 3, 4, 5]);
        seen.require(FAULT[strict], faults().chain(faults().map(|n| 100 + n)));
        seen.require(FAULT[strict], faults().filter(|n| ![13, 20].contains(n)).map(|n| 200 + n));
        seen.require(CUT_FAULT[strict], faults());
        seen.require(FIRST[strict], faults());
        seen.require(FOOTPRINT[strict], 0..14);
        seen.require(LARGE[strict], 0..3);
    }
}

fn one(run: &mut Run, case: FaultsCase) {
    let (strict, refusal) = (case.strict as usize, case.refusal() as u32);
    run.seen.count(REFUSAL[strict], refusal);
    if case.tally_len != 3 {
        run.seen.count(TALLY[strict], refusal);
    }
    if refusal == 5 {
        let list = case.faults_len != case.blocks.len() / 16;
        run.seen.count(LENGTHS[strict], list as u32 + 2 * (case.tally_len != 3) as u32);
    }
    if case.kind > 2 {
        run.seen.count(KIND[strict], FaultsCase { kind: 0, ..case.clone() }.refusal() as u32);
    }
    if let (0, Some(kind)) = (refusal, Kind::of(case.kind)) {
        run.seen.count(FOOTPRINT[strict], case.footprint as u32);
        if case.width == 16384 || case.height == 16384 {
            run.seen.count(LARGE[strict], case.kind as u32);
        }
        let (list, [_, _, first]) = case.expected(kind);
        run.seen.count(FIRST[strict], first as u32);
        for (block, fault) in list.into_iter().enumerate() {
            run.seen.count(FAULT[strict], 100 * case.kind as u32 + fault as u32);
            if case.cut(block) {
                run.seen.count(CUT_FAULT[strict], fault as u32);
            }
        }
    }
    run.case(case);
}

/// The lists of a picture that is not refused, in every kind and both readings.
pub fn picture(run: &mut Run, image: &ImageCase) {
    let ImageCase { footprint, width, height, ref blocks, .. } = *image;
    for (kind, strict) in (0..3).flat_map(|kind| [(kind, false), (kind, true)]) {
        let (blocks, faults_len) = (blocks.clone(), blocks.len() / 16);
        one(run, FaultsCase { strict, footprint, kind, width, height, blocks, faults_len, tally_len: 3 });
    }
}

pub fn run(run: &mut Run, r: &mut Random, count: u64) {
    for _ in 0..count {
        let case = if r.once_in(5) { make::refused_image(r) } else { make::image(r) };
        let kind = if r.once_in(10) { r.pick(&[3, 4, 255]) } else { r.below(3) as u8 };
        let blocks = case.blocks.len() / 16;
        let faults_len =
            if r.once_in(10) { r.pick(&[0, blocks + 1, 16 * blocks, blocks.saturating_sub(1)]) } else { blocks };
        let tally_len = if r.once_in(6) { r.pick(&[0, 2, 4]) } else { 3 };
        let (footprint, width, height, blocks) = (case.footprint, case.width, case.height, case.blocks);
        let ordinary = FaultsCase { strict: false, footprint, kind, width, height, blocks, faults_len, tally_len };
        one(run, FaultsCase { strict: true, ..ordinary.clone() });
        one(run, ordinary);
    }
}

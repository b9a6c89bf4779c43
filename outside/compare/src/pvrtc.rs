//! PVRTC1 images: the library against Godot's pictures and the reference.

use std::fmt;

use reference::pvrtc::{decode_image, refusal};
use reference::random::Random;

use crate::Run;
use crate::cases::{Case, lend};
use crate::seen::Seen;

/// Images with any words, and calls that are mostly refused.
const IMAGES: usize = 3_000;
const REFUSED: usize = 3_000;
const SIDES: [u32; 11] = [4, 8, 16, 32, 64, 128, 256, 512, 1024, 2048, 4096];

#[derive(Clone)]
struct PvrtcCase {
    width: u32,
    height: u32,
    words: Vec<u8>,
    out_len: usize,
}

impl PvrtcCase {
    fn refusal(&self) -> u8 {
        refusal(self.width, self.height, self.words.len(), self.out_len)
    }

    /// An image that is accepted.
    fn whole(width: u32, height: u32, mut byte: impl FnMut() -> u8) -> PvrtcCase {
        let texels = (width * height) as usize;
        let words = (0..texels / 2).map(|_| byte()).collect();
        PvrtcCase { width, height, words, out_len: 4 * texels }
    }
}

impl Case for PvrtcCase {
    fn difference(&self) -> Option<String> {
        let number = self.refusal();
        let mut expected = Vec::new();
        if number == 0 {
            expected.resize(self.out_len, 0);
            decode_image(self.width as usize, self.height as usize, &self.words, &mut expected);
        }
        let wanted = (number == 0).then_some(expected.as_slice());
        let row = Some(self.width.max(1) as usize);
        lend(self.out_len, wanted, row, "pvrtc decode_image", number, |out| {
            library::pvrtc::raw::decode_image(self.width, self.height, &self.words, out)
        })
    }

    fn smaller(&self) -> Vec<PvrtcCase> {
        let mut cases = Vec::new();
        if self.refusal() == 0 {
            for (width, height) in [(self.width / 2, self.height), (self.width, self.height / 2)] {
                if width >= 4 && height >= 4 {
                    let mut bytes = self.words.iter().copied();
                    cases.push(PvrtcCase::whole(width, height, || bytes.next().unwrap_or(0)));
                }
            }
            for at in (0..self.words.len()).filter(|&at| self.words[at] != 0) {
                let mut words = self.words.clone();
                words[at] = 0;
                cases.push(PvrtcCase { words, ..*self });
            }
        } else {
            for (width, height) in [(self.width / 2, self.height), (self.width, self.height / 2)] {
                cases.push(PvrtcCase { width, height, ..self.clone() });
            }
            cases.push(PvrtcCase { words: self.words[..self.words.len() / 2].to_vec(), ..*self });
            cases.push(PvrtcCase { out_len: self.out_len / 2, ..self.clone() });
            let same = |c: &PvrtcCase| {
                (c.width, c.height, c.words.len(), c.out_len)
                    == (self.width, self.height, self.words.len(), self.out_len)
            };
            cases.retain(|c| !same(c));
        }
        cases
    }
}

impl fmt::Display for PvrtcCase {
    fn fmt(&self, f: &mut fmt::Formatter) -> fmt::Result {
        let len = self.words.len();
        writeln!(
            f,
            "PVRTC1 image, {} by {}, {len} bytes of words, out length {}",
            self.width, self.height, self.out_len
        )?;
        for (place, word) in self.words.chunks(8).enumerate().take(64) {
            writeln!(f, "word {place}: {word:02x?}")?;
        }
        Ok(())
    }
}

/// What has to occur.
pub fn require(seen: &mut Seen) {
    seen.require("PVRTC1 call, refusal", [0, 4, 5, 61]);
    seen.require("PVRTC1, refused side", [0, 1, 2, 3, 5, 4095, 4097, 8192]);
    seen.require("PVRTC1, width", SIDES);
    seen.require("PVRTC1, height", SIDES);
    seen.require("PVRTC1 word, colour A opaque", 0..2);
    seen.require("PVRTC1 word, colour B opaque", 0..2);
    seen.require("PVRTC1 word, first texel's modulation, 4 more with M", 0..8);
}

fn one(run: &mut Run, case: PvrtcCase) {
    let number = case.refusal();
    run.seen.count("PVRTC1 call, refusal", number as u32);
    for (sort, side) in [("PVRTC1, width", case.width), ("PVRTC1, height", case.height)] {
        if number == 0 {
            run.seen.count(sort, side);
        } else if !SIDES.contains(&side) {
            run.seen.count("PVRTC1, refused side", side.min(8192));
        }
    }
    if number == 0 {
        for word in case.words.chunks(8) {
            run.seen.count("PVRTC1 word, colour A opaque", (word[5] >> 7) as u32);
            run.seen.count("PVRTC1 word, colour B opaque", (word[7] >> 7) as u32);
            run.seen.count(
                "PVRTC1 word, first texel's modulation, 4 more with M",
                (word[0] & 3 | (word[4] & 1) << 2) as u32,
            );
        }
    }
    run.case(case);
}

/// A length near the right one.
fn near(r: &mut Random, right: usize) -> usize {
    match r.below(5) {
        0 => 0,
        1 => right + 1,
        2 => right.saturating_sub(1),
        3 => right.saturating_sub(8),
        _ => right,
    }
}

/// A side that is refused, or a small one that is not.
fn any_side(r: &mut Random) -> u32 {
    match r.below(3) {
        0 => r.pick(&[0, 1, 2, 3, 5, 4095, 4097, 8192, 1 << 16, 1 << 31, u32::MAX]),
        1 => r.below(70) as u32,
        _ => r.pick(&[4, 8, 16]),
    }
}

pub fn run(run: &mut Run, r: &mut Random) {
    let outcome = vectors::pvrtc::check(&library::pvrtc::raw::decode_image, vectors::pvrtc::STORED);
    println!("PVRTC1 pictures by Godot agree: {} without blue, {} whole", outcome.passed[0], outcome.passed[1]);
    for line in outcome.failed.iter().take(crate::PRINTED as usize) {
        println!("FAILED: PVRTC1 picture, {line}");
    }
    run.passed += outcome.passed.iter().sum::<u64>();
    run.failed += outcome.failed.len() as u64;
    // every pair of short sides, and the long ones beside them
    for width in SIDES {
        for height in SIDES.into_iter().filter(|height| width * height <= 1 << 16) {
            one(run, PvrtcCase::whole(width, height, || r.below(256) as u8));
        }
    }
    for byte in [0, 255] {
        one(run, PvrtcCase::whole(16, 8, || byte));
    }
    for _ in 0..IMAGES {
        let (width, height) = (r.pick(&SIDES[..4]), r.pick(&SIDES[..4]));
        one(run, PvrtcCase::whole(width, height, || r.below(256) as u8));
    }
    for _ in 0..REFUSED {
        let (width, height) = (any_side(r), any_side(r));
        let texels = if width.max(height) <= 70 { (width * height) as usize } else { 16 };
        let words = (0..near(r, texels / 2)).map(|_| r.below(256) as u8).collect();
        one(run, PvrtcCase { width, height, words, out_len: near(r, 4 * texels) });
    }
}

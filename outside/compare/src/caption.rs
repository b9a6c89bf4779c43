//! Best grey captions: the library against astcenc's greys and the reference, which tries all weights.

use std::fmt;

use reference::caption::{better_pair, block, block_with, difference, image, refusal, shown, weights};
use reference::random::Random;

use crate::Run;
use crate::cases::{Case, lend};
use crate::seen::Seen;

/// Blocks, blocks of which every pair of places is tried too, images, and calls that are mostly refused.
const BLOCKS: usize = 4_000;
const PAIRS: usize = 3_000;
const IMAGES: usize = 300;
const REFUSED: usize = 2_000;

#[derive(Clone)]
struct CaptionCase {
    ends: [u8; 2],
    wanted: [u8; 16],
    /// Whether every pair of places is tried.
    pairs: bool,
}

impl Case for CaptionCase {
    fn difference(&self) -> Option<String> {
        let [e0, e1] = self.ends;
        let best = weights(e0, e1, &self.wanted);
        let expected = block(e0, e1, &self.wanted);
        if self.pairs
            && let Some((i, j)) = better_pair(e0, e1, &self.wanted, &best)
        {
            return Some(format!("places {i} and {j} do better at once"));
        }
        let given = library::caption::caption_block(e0, e1, &self.wanted);
        if given != expected {
            return Some(format!("caption {given:02X?}, expected {expected:02X?}"));
        }
        // one wanted grey changed: bits 127 - 2i and 126 - 2i alone may change
        for i in 0..16 {
            let mut other = self.wanted;
            other[i] ^= 0x55;
            let changed =
                u128::from_le_bytes(given) ^ u128::from_le_bytes(library::caption::caption_block(e0, e1, &other));
            if changed & !(3 << (126 - 2 * i)) != 0 {
                return Some(format!("grey {i} changes bits {changed:032X}"));
            }
        }
        lend(16, Some(expected.as_slice()), None, "caption_block", 0, |out| {
            library::caption::raw::caption_block(e0, e1, &self.wanted, out)
        })
    }

    fn smaller(&self) -> Vec<CaptionCase> {
        let changed = (0..16).filter(|&at| self.wanted[at] != 0).map(|at| {
            let mut wanted = self.wanted;
            wanted[at] = 0;
            CaptionCase { wanted, ..self.clone() }
        });
        changed.collect()
    }
}

impl fmt::Display for CaptionCase {
    fn fmt(&self, f: &mut fmt::Formatter) -> fmt::Result {
        let best = weights(self.ends[0], self.ends[1], &self.wanted);
        let greys = shown(&block_with(self.ends[0], self.ends[1], &best));
        writeln!(f, "caption, ends {:?}, wanted {:?}", self.ends, self.wanted)?;
        writeln!(f, "weights {best:?} show {greys:?}, difference {}", difference(&greys, &self.wanted))
    }
}

#[derive(Clone)]
struct ImageCase {
    ends: [u8; 2],
    width: u32,
    height: u32,
    wanted: Vec<u8>,
    blocks_len: usize,
}

impl ImageCase {
    fn refusal(&self) -> u8 {
        refusal(self.width, self.height, self.wanted.len(), self.blocks_len)
    }

    fn whole(ends: [u8; 2], width: u32, height: u32, mut grey: impl FnMut() -> u8) -> ImageCase {
        let wanted = (0..width * height).map(|_| grey()).collect();
        ImageCase { ends, width, height, wanted, blocks_len: 16 * (width.div_ceil(4) * height.div_ceil(4)) as usize }
    }
}

impl Case for ImageCase {
    fn difference(&self) -> Option<String> {
        let ([e0, e1], number) = (self.ends, self.refusal());
        let expected = (number == 0).then(|| image(e0, e1, self.width as usize, self.height as usize, &self.wanted));
        lend(self.blocks_len, expected.as_deref(), None, "caption_image", number, |out| {
            library::caption::raw::caption_image(e0, e1, self.width, self.height, &self.wanted, out)
        })
    }

    fn smaller(&self) -> Vec<ImageCase> {
        let sides = [(self.width / 2, self.height), (self.width, self.height / 2)];
        let cut = sides.into_iter().filter(|&(w, h)| w > 0 && h > 0 && self.refusal() == 0);
        cut.map(|(w, h)| {
            let mut greys = self.wanted.iter().copied();
            ImageCase::whole(self.ends, w, h, || greys.next().unwrap_or(0))
        })
        .collect()
    }
}

impl fmt::Display for ImageCase {
    fn fmt(&self, f: &mut fmt::Formatter) -> fmt::Result {
        let (ends, width, height) = (self.ends, self.width, self.height);
        writeln!(f, "image of captions, ends {ends:?}, {width} by {height}, room for {} bytes", self.blocks_len)?;
        writeln!(f, "{} wanted greys {:?}", self.wanted.len(), &self.wanted[..self.wanted.len().min(64)])
    }
}

/// What has to occur.
pub fn require(seen: &mut Seen) {
    seen.require("caption, weight", 0..4);
    seen.require("caption, ends equal, rising, falling", 0..3);
    seen.require("caption, some weights show the same grey", [1]);
    seen.require("caption, two greys as near", [1]);
    seen.require("caption image call, refusal", [0, 3, 4, 5]);
    seen.require("caption image, width and height cut by so much", 0..16);
    seen.require("caption block call, refusal", [4, 5]);
}

/// Two ends: near each other, equal, the outermost, or any.
fn ends(r: &mut Random) -> [u8; 2] {
    let first = r.below(256) as u8;
    match r.below(8) {
        0 => [first, first],
        1 => r.pick(&[[0, 255], [255, 0], [0, 1], [1, 0], [254, 255], [0, 2], [2, 0]]),
        2 => [first, first.saturating_add(r.below(9) as u8)],
        3 => [first, first.saturating_sub(r.below(9) as u8)],
        _ => [first, r.below(256) as u8],
    }
}

/// A wanted grey: often between two of the greys that can be shown, where ties are.
fn grey(r: &mut Random, [e0, e1]: [u8; 2]) -> u8 {
    let at = |sixths: u32| ((e0 as u32 * (6 - sixths) + e1 as u32 * sixths) / 6) as u8;
    match r.below(3) {
        0 => r.below(256) as u8,
        1 => at(r.below(7) as u32),
        _ => at(r.below(7) as u32).wrapping_add(r.below(5) as u8).wrapping_sub(2),
    }
}

fn count(run: &mut Run, case: &CaptionCase) {
    let [e0, e1] = case.ends;
    let greys = [0, 1, 2, 3].map(|weight| shown(&block_with(e0, e1, &[weight; 16]))[0]);
    run.seen.count("caption, ends equal, rising, falling", if e0 == e1 { 0 } else { 1 + (e1 < e0) as u32 });
    let same = (0..4).any(|i| (0..i).any(|j| greys[i] == greys[j]));
    run.seen.count("caption, some weights show the same grey", same as u32);
    for (i, weight) in weights(e0, e1, &case.wanted).into_iter().enumerate() {
        run.seen.count("caption, weight", weight as u32);
        let far = |w: usize| greys[w].abs_diff(case.wanted[i]);
        let tie = (0..4).any(|w| greys[w] != greys[weight as usize] && far(w) == far(weight as usize));
        run.seen.count("caption, two greys as near", tie as u32);
    }
}

fn one_image(run: &mut Run, case: ImageCase) {
    run.seen.count("caption image call, refusal", case.refusal() as u32);
    if case.refusal() == 0 {
        let cut = |side: u32| (4 - side % 4) % 4;
        run.seen.count("caption image, width and height cut by so much", 4 * cut(case.width) + cut(case.height));
    }
    run.case(case);
}

pub fn run(run: &mut Run, r: &mut Random) {
    let mut agree = 0;
    for stored in vectors::caption::stored() {
        let given = library::caption::caption_block(stored.ends[0], stored.ends[1], stored.wanted);
        let mut texels = [0; 64];
        let answer = library::raw::decode_block_srgb8(0, stored.block, &mut texels);
        if given == *stored.block && answer == 0 && texels == *stored.texels {
            agree += 1;
        } else {
            run.failed += 1;
            println!("FAILED: caption of astcenc's greys, ends {:?}, wanted {:?}", stored.ends, stored.wanted);
        }
    }
    println!("captions by astcenc's greys agree: {agree}");
    run.passed += agree;
    for k in 0..BLOCKS + PAIRS {
        let ends = ends(r);
        let case = CaptionCase { ends, wanted: std::array::from_fn(|_| grey(r, ends)), pairs: k < PAIRS };
        count(run, &case);
        run.case(case);
    }
    for width in 1..=9 {
        for height in 1..=9 {
            let ends = ends(r);
            one_image(run, ImageCase::whole(ends, width, height, || grey(r, ends)));
        }
    }
    for _ in 0..IMAGES {
        let (ends, width, height) = (ends(r), 1 + r.below(20) as u32, 1 + r.below(20) as u32);
        one_image(run, ImageCase::whole(ends, width, height, || grey(r, ends)));
    }
    for _ in 0..REFUSED {
        let any = |r: &mut Random| match r.below(4) {
            0 => r.pick(&[0, 16385, 1 << 16, 1 << 31, u32::MAX]),
            _ => 1 + r.below(9) as u32,
        };
        let (width, height) = (any(r), any(r));
        let (w, h) = (width.min(9), height.min(9));
        let near = |r: &mut Random, right: usize| r.pick(&[right, right, right + 1, right.saturating_sub(1), 0]);
        let wanted = vec![7; near(r, (w * h) as usize)];
        let blocks_len = near(r, 16 * (w.div_ceil(4) * h.div_ceil(4)) as usize);
        one_image(run, ImageCase { ends: [1, 2], width, height, wanted, blocks_len });
    }
    for (greys, bytes, number) in
        [(16, 15, 4), (15, 15, 4), (16, 17, 4), (16, 0, 4), (15, 16, 5), (17, 16, 5), (0, 16, 5)]
    {
        let mut block = vec![7; bytes];
        let answer = library::caption::raw::caption_block(1, 2, &vec![3; greys], &mut block);
        run.seen.count("caption block call, refusal", answer as u32);
        if answer == number && block == vec![7; bytes] {
            run.passed += 1;
        } else {
            run.failed += 1;
            println!("FAILED: caption_block with {greys} greys and {bytes} bytes answers {answer}");
        }
    }
}

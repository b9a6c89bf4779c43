//! One texel of an image: the library's calls, and its `View`, against the reference's engine and against the library's own image calls.

use std::fmt;

use library::Footprint;
use library::view::{View, raw};
use reference::random::Random;
use reference::{FOOTPRINTS, Kind, ask, view_refusal};

use crate::Run;
use crate::cases::{Case, lend};
use crate::make;
use crate::seen::Seen;

#[derive(Clone)]
struct ViewCase {
    footprint: u8,
    width: u32,
    height: u32,
    blocks: Vec<u8>,
    places: Vec<(u32, u32)>,
    out_len: usize,
}

/// The texels of the library's own image call, in 16 bits.
fn picture(case: &ViewCase, kind: Kind) -> Vec<u16> {
    let (mut words, mut tally) = (vec![0; 4 * (case.width * case.height) as usize], [0; 3]);
    let mut bytes = vec![0; words.len()];
    let ViewCase { footprint, width, height, ref blocks, .. } = *case;
    let answer = match kind {
        Kind::Unorm16 => library::raw::decode_image_unorm16(footprint, width, height, blocks, &mut words, &mut tally),
        Kind::Float16 => library::raw::decode_image_float16(footprint, width, height, blocks, &mut words, &mut tally),
        Kind::Srgb8 => {
            let answer = library::raw::decode_image_srgb8(footprint, width, height, blocks, &mut bytes, &mut tally);
            words = bytes.into_iter().map(u16::from).collect();
            answer
        }
    };
    assert_eq!(answer, 0);
    words
}

impl ViewCase {
    fn refusal(&self) -> u8 {
        view_refusal(self.footprint as usize, self.width, self.height, self.blocks.len())
    }

    /// What is told of a place in a kind, and the texel.
    fn expected(&self, kind: Kind, x: u32, y: u32) -> (u8, [u16; 4]) {
        let (number, texel) = ask(self.footprint as usize, kind, self.width, self.height, &self.blocks, x, y);
        (if number != 44 && self.out_len != 4 { 5 } else { number }, texel)
    }

    fn place(&self, kind: Kind, x: u32, y: u32, picture: Option<&[u16]>) -> Option<String> {
        let ViewCase { footprint, width, height, ref blocks, out_len, .. } = *self;
        let (number, texel) = self.expected(kind, x, y);
        if let Some(picture) = picture
            && x < width
            && y < height
            && picture[4 * (y * width + x) as usize..][..4] != texel
        {
            return Some("the image call shows another texel than the reference".into());
        }
        let what = format!("texel x {x} y {y} in {kind:?}");
        let whole = out_len == 4;
        match kind {
            Kind::Srgb8 => {
                let bytes = texel.map(|n| n as u8);
                lend(out_len, whole.then_some(&bytes[..]), None, &what, number, |out| {
                    raw::texel_srgb8(footprint, width, height, blocks, x, y, out)
                })
            }
            _ => lend(out_len, whole.then_some(&texel[..]), None, &what, number, |out| match kind {
                Kind::Unorm16 => raw::texel_unorm16(footprint, width, height, blocks, x, y, out),
                _ => raw::texel_float16(footprint, width, height, blocks, x, y, out),
            }),
        }
    }

    /// The wrapper at a place, in kind 0.
    fn wrapped(&self, x: u32, y: u32) -> Option<String> {
        let refusal = self.refusal();
        let given = match Footprint::try_from(self.footprint)
            .and_then(|f| View::new(&self.blocks, f, self.width, self.height))
        {
            Err(e) => return (e.number() != refusal).then(|| format!("making a view answers {e}, expected {refusal}")),
            Ok(_) if refusal != 0 => return Some(format!("making a view is not refused by {refusal}")),
            Ok(view) => view.unorm16(x, y),
        };
        let (number, texel) = ask(self.footprint as usize, Kind::Unorm16, self.width, self.height, &self.blocks, x, y);
        let same = match given {
            Ok(asked) => {
                number != 44 && (asked.fault.map_or(0, |fault| fault.number()), asked.texel) == (number, texel)
            }
            Err(e) => e.number() == number,
        };
        (!same).then(|| format!("the view answers {given:?} at x {x} y {y}"))
    }
}

impl Case for ViewCase {
    fn difference(&self) -> Option<String> {
        for kind in [Kind::Unorm16, Kind::Srgb8, Kind::Float16] {
            let picture = (self.refusal() == 0).then(|| picture(self, kind));
            for &(x, y) in &self.places {
                if let Some(difference) = self.place(kind, x, y, picture.as_deref()) {
                    return Some(difference);
                }
            }
        }
        self.places.iter().find_map(|&(x, y)| self.wrapped(x, y))
    }

    fn smaller(&self) -> Vec<ViewCase> {
        let half = self.places.len() / 2;
        let cut = [&self.places[..half], &self.places[half..]];
        let cases = cut.into_iter().filter(|places| places.len() < self.places.len() && !places.is_empty());
        cases.map(|places| ViewCase { places: places.to_vec(), ..self.clone() }).collect()
    }
}

impl fmt::Display for ViewCase {
    fn fmt(&self, f: &mut fmt::Formatter) -> fmt::Result {
        let ViewCase { footprint, width, height, ref places, out_len, .. } = *self;
        writeln!(f, "view, footprint {footprint}, {width} by {height}, room for {out_len} numbers, places {places:?}")?;
        writeln!(f, "{} bytes {:02X?}", self.blocks.len(), &self.blocks[..self.blocks.len().min(256)])
    }
}

/// What has to occur.
pub fn require(seen: &mut Seen) {
    seen.require("texel call, number told", [0, 5, 11, 12, 13, 14, 15, 16, 17, 18, 19, 20, 44]);
    seen.require("texel, footprint", 0..14);
    seen.require("texel, corner of the picture", 0..4);
    seen.require("texel outside: right, below, both, far", 0..4);
    seen.require("texel of a view that making would refuse, by", [1, 3, 4]);
}

fn one(run: &mut Run, case: ViewCase) {
    let ViewCase { footprint, width, height, ref places, .. } = case;
    for &(x, y) in places {
        for kind in [Kind::Unorm16, Kind::Srgb8, Kind::Float16] {
            run.seen.count("texel call, number told", case.expected(kind, x, y).0 as u32);
        }
        match case.refusal() {
            0 if x < width && y < height => {
                run.seen.count("texel, footprint", footprint as u32);
                if (x == 0 || x + 1 == width) && (y == 0 || y + 1 == height) {
                    run.seen.count("texel, corner of the picture", 2 * (y != 0) as u32 + (x != 0) as u32);
                }
            }
            0 => {
                let far = x > width || y > height;
                let sort = if far { 3 } else { (x == width) as u32 + 2 * (y == height) as u32 - 1 };
                run.seen.count("texel outside: right, below, both, far", sort);
            }
            refusal => run.seen.count("texel of a view that making would refuse, by", refusal as u32),
        }
    }
    run.case(case);
}

/// Corners, edges, just outside, far outside, and any places.
fn places(r: &mut Random, width: u32, height: u32) -> Vec<(u32, u32)> {
    let (right, bottom) = (width.saturating_sub(1), height.saturating_sub(1));
    let mut places = vec![(0, 0), (right, 0), (0, bottom), (right, bottom), (width, 0), (0, height), (width, height)];
    places.push(r.pick(&[(u32::MAX, 0), (0, u32::MAX), (1 << 31, 1 << 31), (width.wrapping_add(4), 0)]));
    for _ in 0..12 {
        places
            .push((r.below(width.clamp(1, 20_000) as usize) as u32, r.below(height.clamp(1, 20_000) as usize) as u32));
    }
    places
}

pub fn run(run: &mut Run, r: &mut Random, count: u64) {
    for (w, h) in FOOTPRINTS {
        for (width, height) in [(w, h), (1, 1), (2 * w + 1, h + 1), (w - 1, 3 * h)] {
            let mut case = make::image(r);
            while FOOTPRINTS[case.footprint as usize] != (w, h) {
                case = make::image(r);
            }
            let (width, height) = (width as u32, height as u32);
            let blocks = (width as usize).div_ceil(w) * (height as usize).div_ceil(h);
            let blocks: Vec<u8> = case.blocks.into_iter().cycle().take(16 * blocks).collect();
            // every place, and one past it on each axis
            let every = (0..=height).flat_map(|y| (0..=width).map(move |x| (x, y))).collect();
            one(run, ViewCase { footprint: case.footprint, width, height, blocks, places: every, out_len: 4 });
        }
    }
    for _ in 0..count {
        let refused = r.once_in(4);
        let case = if refused { make::refused_image(r) } else { make::image(r) };
        let places = places(r, case.width, case.height);
        let out_len = if r.once_in(20) { r.pick(&[0, 3, 5, 8]) } else { 4 };
        let (footprint, width, height, blocks) = (case.footprint, case.width, case.height, case.blocks);
        one(run, ViewCase { footprint, width, height, blocks, places, out_len });
    }
}

//! Clips: cut at every place and at random, damaged in every header byte, ended anywhere; and frames for the writer.

use std::fmt;
use std::io::{self, Read};

use library::clip::{Block, Clip, ClipReader, Frame, ReadError};
use library::raw;
use reference::random::Random;
use reference::{ClipBlock, ClipFrame, FOOTPRINTS, ParsedClip, clip_frame, parse_clip};

use crate::Run;
use crate::cases::Case;

/// What must occur.
pub const SORTS: &[(&str, &[u32])] = &[
    ("clip, refusal", &[0, 1, 2, 3, 51, 52]),
    ("clip, end", &[0, 1, 2, 3, 51, 52, 53]),
    ("clip, frames begun", &[0, 1, 2, 3, 4]),
    ("clip, empty piece", &[1]),
    ("clip, pieces of one byte", &[1]),
    ("clip, side of 16384", &[1]),
    ("clip, header byte damaged", &[0, 1, 2, 3, 4, 5, 6, 7, 8, 9, 10]),
    ("clip, bytes of a block that came before a cut", &[0, 1, 2, 3, 4, 5, 6, 7, 8, 9, 10, 11, 12, 13, 14, 15]),
    ("clip, bytes of a header that came before a cut", &[0, 1, 2, 3, 4, 5, 6, 7, 8, 9]),
    ("clip, kind of a frame that is taken", &[0, 1, 2]),
    ("clip, kind 3, refusal", &[2]),
    ("clip frame call, refusal", &[0, 1, 2, 3, 4, 5]),
    ("clip frame call, kind that is taken", &[0, 1, 2]),
    ("clip frame call, kind 3, refusal", &[1, 2]),
    ("clip call, list of another length", &[5]),
];

/// A clip, and where it is cut into pieces: ends of pieces, growing; equal ones make an empty piece.
#[derive(Clone)]
pub struct ClipCase {
    pub bytes: Vec<u8>,
    pub cuts: Vec<usize>,
}

impl ClipCase {
    fn pieces(&self) -> Vec<&[u8]> {
        let ends = self.cuts.iter().copied().chain([self.bytes.len()]);
        let mut start = 0;
        ends.map(|end| &self.bytes[std::mem::replace(&mut start, end)..end]).collect()
    }
}

/// One feed of the C call: the number, and what it tells; all lists begin with other numbers.
fn feed(state: &mut [u32; 26], piece: &[u8]) -> (u8, [u64; 8], [u8; 16]) {
    let (mut block, mut told) = ([0xA7; 16], [0xA75C; 8]);
    let number = raw::clip_feed(state, piece, &mut block, &mut told);
    (number, told, block)
}

/// Nothing is taken, handed out or changed any more, and the number is repeated.
fn silent(state: &mut [u32; 26], number: u8, what: &str) -> Result<(), String> {
    for piece in [&[][..], &[1], &[1; 40]] {
        let before = *state;
        let (again, told, block) = feed(state, piece);
        if (again, told[0], told[1], block) != (number, 0, 0, [0; 16]) || *state != before {
            return Err(format!("after {what} {number}, a piece of {}: number {again}, {told:?}", piece.len()));
        }
    }
    Ok(())
}

/// What the C calls tell of a clip in pieces.
fn by_calls(case: &ClipCase) -> Result<ParsedClip, String> {
    let mut state = [0xA75C_00A7; 26];
    if raw::clip_start(&mut state) != 0 {
        return Err("a fresh start is refused".into());
    }
    let mut parsed = ParsedClip::default();
    let mut came = 0;
    'pieces: for piece in case.pieces() {
        let mut rest = piece;
        loop {
            let (number, told, bytes) = feed(&mut state, rest);
            let [taken, handed, frame_index, index, footprint, kind, width, height] = told;
            if taken as usize > rest.len() {
                return Err(format!("{taken} of {} bytes taken", rest.len()));
            }
            rest = &rest[taken as usize..];
            came += taken as usize;
            if number != 0 {
                parsed.refusal = Some((number, came));
                silent(&mut state, number, "refusal")?;
                break 'pieces;
            }
            if handed == 0 {
                if !rest.is_empty() || bytes != [0; 16] {
                    return Err(format!("nothing is handed out, {} bytes are left", rest.len()));
                }
                break;
            }
            let frame =
                ClipFrame { footprint: footprint as u8, kind: kind as u8, width: width as u32, height: height as u32 };
            let (frame_index, index) = (frame_index as u32, index as u32);
            parsed.blocks.push(ClipBlock { frame_index, index, frame, bytes, came });
        }
    }
    parsed.end = raw::clip_finish(&mut state);
    silent(&mut state, parsed.end, "the end")?;
    let again = raw::clip_finish(&mut state);
    if again != parsed.end {
        return Err(format!("the end tells {}, then {again}", parsed.end));
    }
    Ok(parsed)
}

fn plain(b: &Block) -> (u32, u32, ClipFrame, [u8; 16]) {
    let Frame { footprint, kind, width, height } = b.frame;
    let frame = ClipFrame { footprint: footprint.number(), kind: kind.number(), width, height };
    (b.frame_index, b.index, frame, b.bytes)
}

/// What the Rust reader tells of a clip in pieces: its blocks and its end.
fn by_pieces(case: &ClipCase) -> (Vec<Block>, u8) {
    let mut clip = Clip::new();
    let mut blocks = Vec::new();
    for piece in case.pieces() {
        for block in clip.blocks(piece) {
            match block {
                Ok(block) => blocks.push(block),
                Err(_) => break,
            }
        }
    }
    (blocks, clip.finish().err().map_or(0, |e| e.number()))
}

/// Gives the pieces that are not empty, one for each call.
struct Source<'a>(Vec<&'a [u8]>);

impl Read for Source<'_> {
    fn read(&mut self, buffer: &mut [u8]) -> io::Result<usize> {
        self.0.retain(|piece| !piece.is_empty());
        let Some(piece) = self.0.first_mut() else { return Ok(0) };
        piece.read(buffer)
    }
}

/// The same by a reader over any source of bytes.
fn by_reader(case: &ClipCase) -> (Vec<Block>, u8) {
    let mut blocks = Vec::new();
    for block in ClipReader::new(Source(case.pieces())) {
        match block {
            Ok(block) => blocks.push(block),
            Err(ReadError::Clip(error)) => return (blocks, error.number()),
            Err(ReadError::Io(_)) => unreachable!(),
        }
    }
    (blocks, 0)
}

impl Case for ClipCase {
    fn difference(&self) -> Option<String> {
        let expected = parse_clip(&self.bytes);
        match by_calls(self) {
            Err(difference) => return Some(difference),
            Ok(given) if given != expected => {
                let at = given.blocks.iter().zip(&expected.blocks).take_while(|(a, b)| a == b).count();
                return Some(format!(
                    "{} blocks, refusal {:?}, end {}; expected {} blocks, {:?}, {}; first {at} blocks equal",
                    given.blocks.len(),
                    given.refusal,
                    given.end,
                    expected.blocks.len(),
                    expected.refusal,
                    expected.end,
                ));
            }
            Ok(_) => {}
        }
        let wanted: Vec<_> = expected.blocks.iter().map(|b| (b.frame_index, b.index, b.frame, b.bytes)).collect();
        for (what, (blocks, end)) in [("Clip", by_pieces(self)), ("ClipReader", by_reader(self))] {
            if blocks.iter().map(plain).collect::<Vec<_>>() != wanted || end != expected.end {
                return Some(format!("{what}: {} blocks, end {end}, expected {}", blocks.len(), expected.end));
            }
        }
        None
    }

    fn smaller(&self) -> Vec<ClipCase> {
        let mut cases = Vec::new();
        for i in 0..self.cuts.len() {
            let mut case = self.clone();
            case.cuts.remove(i);
            cases.push(case);
        }
        for len in [self.bytes.len() / 2, self.bytes.len().saturating_sub(16), self.bytes.len().saturating_sub(1)] {
            if len < self.bytes.len() {
                let cuts = self.cuts.iter().map(|&c| c.min(len)).collect();
                cases.push(ClipCase { bytes: self.bytes[..len].to_vec(), cuts });
            }
        }
        cases
    }
}

impl fmt::Display for ClipCase {
    fn fmt(&self, f: &mut fmt::Formatter) -> fmt::Result {
        write!(f, "clip of {} bytes, cut at {:?}: {:02X?}", self.bytes.len(), self.cuts, self.bytes)
    }
}

/// The writer's call.
#[derive(Clone)]
pub struct FrameCase {
    pub frame: ClipFrame,
    pub blocks: Vec<u8>,
    pub room: usize,
}

impl Case for FrameCase {
    fn difference(&self) -> Option<String> {
        let ClipFrame { footprint, kind, width, height } = self.frame;
        let expected = clip_frame(&self.frame, &self.blocks, self.room);
        let kept = vec![0xA7; self.room];
        let mut out = kept.clone();
        let number = raw::clip_write_frame(footprint, kind, width, height, &self.blocks, &mut out);
        let (wanted, bytes) = match &expected {
            Ok(bytes) => (0, bytes),
            Err(refusal) => (*refusal, &kept),
        };
        if number != wanted {
            return Some(format!("the writer answers {number}, expected {wanted}"));
        }
        (out != *bytes).then(|| format!("the writer answers {number} and leaves other bytes"))
    }

    fn smaller(&self) -> Vec<FrameCase> {
        Vec::new()
    }
}

impl fmt::Display for FrameCase {
    fn fmt(&self, f: &mut fmt::Formatter) -> fmt::Result {
        write!(f, "{:?}, {} bytes of blocks, room for {}", self.frame, self.blocks.len(), self.room)
    }
}

// ---- drawing cases

fn blocks_of(frame: &ClipFrame) -> usize {
    let (w, h) = FOOTPRINTS[frame.footprint as usize];
    (frame.width as usize).div_ceil(w) * (frame.height as usize).div_ceil(h)
}

/// A frame that is not refused, and its blocks.
fn shot(r: &mut Random) -> (ClipFrame, Vec<u8>) {
    let side = |r: &mut Random| 1 + r.below(24) as u32;
    let mut frame = ClipFrame { footprint: r.below(14) as u8, kind: r.below(3) as u8, width: side(r), height: side(r) };
    if r.once_in(40) {
        frame = ClipFrame { footprint: 13, width: 16384, height: 1, ..frame };
    }
    let blocks = (0..blocks_of(&frame)).flat_map(|_| r.bytes()).collect();
    (frame, blocks)
}

/// A clip of so many frames, and where their ten bytes begin.
fn clip(r: &mut Random, frames: usize) -> (Vec<u8>, Vec<usize>) {
    let (mut bytes, mut heads) = (vec![1], Vec::new());
    for _ in 0..frames {
        let (frame, blocks) = shot(r);
        heads.push(bytes.len());
        bytes.extend(clip_frame(&frame, &blocks, 10 + blocks.len()).unwrap());
    }
    (bytes, heads)
}

/// Cuts at random, by pieces of about so many bytes.
fn cuts(r: &mut Random, len: usize) -> Vec<usize> {
    let step = r.pick(&[1, 2, 7, 16, 20, 60, 400]);
    let mut cuts = Vec::new();
    let mut at = 0;
    while at < len && cuts.len() < 2000 {
        at = (at + if step == 1 { 1 } else { r.below(2 * step) }).min(len);
        cuts.push(at);
    }
    cuts
}

fn random(run: &mut Run, r: &mut Random) {
    let frames = r.below(5);
    let (mut bytes, heads) = clip(r, frames);
    if r.once_in(3) {
        bytes.truncate(r.below(bytes.len() + 1));
    }
    if r.once_in(2) && !bytes.is_empty() {
        // a header byte, low bits more often
        let (place, byte) = match r.below(frames + 1) {
            0 => (0, 0),
            k => {
                let i = r.below(10);
                (heads[k - 1] + i, i + 1)
            }
        };
        if place < bytes.len() {
            bytes[place] ^= if r.once_in(2) { 1 << r.below(8) } else { 1 + r.below(255) as u8 };
            run.seen.count("clip, header byte damaged", byte as u32);
        }
    }
    let cuts = cuts(r, bytes.len());
    run.clip(ClipCase { bytes, cuts });
}

/// Every cut, damage and end of a small clip.
fn edges(run: &mut Run, r: &mut Random) {
    let mut bytes = vec![1];
    for (footprint, width, height) in [(0, 5, 4), (4, 6, 6)] {
        let frame = ClipFrame { footprint, kind: 1, width, height };
        let blocks: Vec<u8> = (0..blocks_of(&frame)).flat_map(|_| r.bytes()).collect();
        bytes.extend(clip_frame(&frame, &blocks, 10 + blocks.len()).unwrap());
    }
    let len = bytes.len();
    for a in 0..=len {
        for b in a..=len {
            run.clip(ClipCase { bytes: bytes.clone(), cuts: vec![a, b] });
        }
        for end in [&bytes[..a], &[&bytes[..a], &[0xFF; 30][..]].concat()] {
            run.clip(ClipCase { bytes: end.to_vec(), cuts: (0..=end.len()).collect() });
            let cuts = cuts(r, end.len());
            run.clip(ClipCase { bytes: end.to_vec(), cuts });
        }
    }
    let heads = [0].into_iter().chain(1..11).chain(43..53);
    for place in heads {
        for value in 0..=255 {
            let mut damaged = bytes.clone();
            damaged[place] = value;
            let byte = if place > 42 { place - 42 } else { place };
            run.seen.count("clip, header byte damaged", byte as u32);
            let cuts = cuts(r, len);
            run.clip(ClipCase { bytes: damaged.clone(), cuts });
            run.clip(ClipCase { bytes: damaged, cuts: Vec::new() });
        }
    }
    // sides at and past their limits, and a length that is off by one
    for (width, height) in [(16384, 1), (16385, 1), (1, 16384), (1, 16385), (0, 1), (1, 0), (65535, 65535)] {
        for off in [-1i64, 0, 1, 16] {
            let frame = ClipFrame { footprint: 13, kind: 0, width, height };
            let blocks = vec![7; 16 * blocks_of(&frame).min(1400)];
            let length = (6 + blocks.len() as i64 + off) as u32;
            let mut bytes = vec![1];
            bytes.extend(length.to_be_bytes());
            bytes.extend([13, 0]);
            bytes.extend((width as u16).to_be_bytes());
            bytes.extend((height as u16).to_be_bytes());
            bytes.extend(&blocks);
            let cuts = cuts(r, bytes.len());
            run.clip(ClipCase { bytes, cuts });
        }
    }
    lengths(run);
    for kind in 0..=3 {
        for (footprint, width) in [(0, 1), (0, 0), (14, 1)] {
            let frame = ClipFrame { footprint, kind, width, height: 1 };
            run.frame(FrameCase { frame, room: 26, blocks: vec![9; 16] });
            let mut bytes = vec![1, 0, 0, 0, 22, footprint, kind, 0, width as u8, 0, 1];
            bytes.extend([7; 16]);
            run.clip(ClipCase { bytes, cuts: Vec::new() });
        }
    }
    for (width, height) in [(16384, 1), (16385, 1), (65536 + 5, 4), (1, u32::MAX), (0, 1)] {
        let frame = ClipFrame { footprint: 13, kind: 1, width, height };
        let blocks = vec![9; 16 * 1366];
        run.frame(FrameCase { frame, room: 10 + blocks.len(), blocks });
    }
}

/// Lists of other lengths are refused by 5, and nothing is written.
fn lengths(run: &mut Run) {
    for (s, b, t) in
        [(25, 16, 8), (27, 16, 8), (0, 16, 8), (26, 15, 8), (26, 17, 8), (26, 16, 7), (26, 16, 9), (0, 0, 0)]
    {
        let (mut state, mut block, mut told) = (vec![3; s], vec![4; b], vec![5; t]);
        let numbers = [
            raw::clip_feed(&mut state, &[1; 40], &mut block, &mut told),
            if s == 26 { 5 } else { raw::clip_start(&mut state) },
            if s == 26 { 5 } else { raw::clip_finish(&mut state) },
        ];
        run.seen.count("clip call, list of another length", numbers[0] as u32);
        if numbers == [5; 3] && state == vec![3; s] && block == vec![4; b] && told == vec![5; t] {
            run.passed += 1;
        } else {
            run.failed += 1;
            println!("FAILED: clip calls with lists of {s}, {b} and {t} numbers: {numbers:?}");
        }
    }
}

fn frame(run: &mut Run, r: &mut Random) {
    let (mut frame, mut blocks) = shot(r);
    let mut room = 10 + blocks.len();
    match r.below(8) {
        0 => frame.footprint = 14 + r.below(242) as u8,
        1 => frame.kind = if r.once_in(2) { 3 } else { 3 + r.below(253) as u8 },
        2 => frame.width = r.pick(&[0, 16385, 65536, 65537, u32::MAX]),
        3 => frame.height = r.pick(&[0, 16385, 65536, 65537, u32::MAX]),
        4 => blocks.resize(r.pick(&[0, blocks.len() - 1, blocks.len() + 1, blocks.len() + 16]), 0),
        5 => room = r.pick(&[0, room - 1, room + 1, room + 10, room - 10]),
        _ => {}
    }
    run.frame(FrameCase { frame, blocks, room });
}

/// A state that nobody made by feeding is answered, and stays inside what was lent.
fn hand_made(run: &mut Run, r: &mut Random) {
    let mut state: [u32; 26] = std::array::from_fn(|i| match r.below(3) {
        0 => r.word() as u32,
        1 => r.below(20) as u32,
        _ => [2, 0, 0, 5, 1, 3, 0, 0, 8, 8][i.min(9)],
    });
    let piece: Vec<u8> = (0..r.below(40)).map(|_| r.word() as u8).collect();
    let (_, told, _) = feed(&mut state, &piece);
    let sound = told[0] as usize <= piece.len() && told[0] <= 27 && told[1] <= 1 && state[0] <= 3;
    let bytes = [1, 2, 6, 7].into_iter().chain(10..26).all(|i| state[i] < 256);
    if sound && bytes {
        run.passed += 1;
    } else {
        run.failed += 1;
        println!("FAILED: a hand-made state: {told:?}, then {state:?}");
    }
}

impl Run {
    fn clip(&mut self, case: ClipCase) {
        let parsed = parse_clip(&case.bytes);
        self.seen.count("clip, refusal", parsed.refusal.map_or(0, |r| r.0 as u32));
        self.seen.count("clip, end", parsed.end as u32);
        for b in parsed.blocks.iter().filter(|b| b.index == 0) {
            self.seen.count("clip, kind of a frame that is taken", b.frame.kind as u32);
        }
        if let (Some((refusal, 11)), [1, _, _, _, _, 0..=13, 3, ..]) = (parsed.refusal, case.bytes.as_slice()) {
            self.seen.count("clip, kind 3, refusal", refusal as u32);
        }
        let begun = parsed.blocks.last().map_or(0, |b| b.frame_index + 1);
        self.seen.count("clip, frames begun", begun);
        let long = parsed.blocks.iter().any(|b| b.frame.width == 16384 || b.frame.height == 16384);
        self.seen.count("clip, side of 16384", long as u32);
        let pieces = case.pieces();
        self.seen.count("clip, empty piece", pieces.iter().any(|p| p.is_empty()) as u32);
        self.seen.count("clip, pieces of one byte", (pieces.len() > 1 && pieces.iter().any(|p| p.len() == 1)) as u32);
        // the first block's place is 11: before it stands the first header
        for &cut in case.cuts.iter().filter(|&&c| !parsed.blocks.is_empty() && c >= 1) {
            if cut < 11 {
                self.seen.count("clip, bytes of a header that came before a cut", cut as u32 - 1);
            } else if cut < 27 {
                self.seen.count("clip, bytes of a block that came before a cut", cut as u32 - 11);
            }
        }
        self.case(case);
    }

    fn frame(&mut self, case: FrameCase) {
        let refusal = clip_frame(&case.frame, &case.blocks, case.room).err().unwrap_or(0);
        self.seen.count("clip frame call, refusal", refusal as u32);
        if refusal == 0 {
            self.seen.count("clip frame call, kind that is taken", case.frame.kind as u32);
        }
        if case.frame.kind == 3 {
            self.seen.count("clip frame call, kind 3, refusal", refusal as u32);
        }
        self.case(case);
    }
}

/// All of them: the edges, and n random clips and frames.
pub fn cases(run: &mut Run, r: &mut Random, n: u64) {
    edges(run, r);
    for _ in 0..n {
        random(run, r);
        frame(run, r);
        hand_made(run, r);
    }
}

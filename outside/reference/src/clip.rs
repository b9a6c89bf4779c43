//! Clips (02, j), read whole: the bytes of a clip at once, by offsets. There is no state and there are no pieces.

use crate::FOOTPRINTS;
use crate::refusals::SIDES;

/// What the ten bytes before a frame's blocks say, but for their length.
#[derive(Clone, Copy, PartialEq, Eq, Debug, Default)]
pub struct ClipFrame {
    pub footprint: u8,
    pub kind: u8,
    pub width: u32,
    pub height: u32,
}

impl ClipFrame {
    /// 1, 2 or 3, with the limits in force; 0 for none.
    fn refusal(&self) -> u8 {
        if self.footprint > 13 {
            1
        } else if self.kind > 2 {
            2
        } else if !SIDES.contains(&self.width) || !SIDES.contains(&self.height) {
            3
        } else {
            0
        }
    }

    /// Blocks of a frame that is not refused.
    fn blocks(&self) -> usize {
        let (w, h) = FOOTPRINTS[self.footprint as usize];
        (self.width as usize).div_ceil(w) * (self.height as usize).div_ceil(h)
    }
}

/// A block of a clip, and how many bytes of the clip had come with its last one.
#[derive(Clone, PartialEq, Eq, Debug)]
pub struct ClipBlock {
    pub frame_index: u32,
    pub index: u32,
    pub frame: ClipFrame,
    pub bytes: [u8; 16],
    pub came: usize,
}

/// All that a clip tells.
#[derive(Clone, PartialEq, Eq, Debug, Default)]
pub struct ParsedClip {
    pub blocks: Vec<ClipBlock>,
    /// A refusal, and how many bytes had come when it was told.
    pub refusal: Option<(u8, usize)>,
    /// What saying that it is finished tells.
    pub end: u8,
}

/// Reads a clip.
pub fn parse_clip(clip: &[u8]) -> ParsedClip {
    let mut parsed = ParsedClip::default();
    parsed.end = match clip.first() {
        None => 53,
        Some(1) => frames(clip, &mut parsed),
        Some(_) => {
            parsed.refusal = Some((51, 1));
            51
        }
    };
    parsed
}

/// The frames behind the version byte; answers what the end tells.
fn frames(clip: &[u8], parsed: &mut ParsedClip) -> u8 {
    let mut at = 1;
    for frame_index in 0u64.. {
        let rest = &clip[at..];
        if rest.is_empty() {
            return 0;
        }
        if rest.len() < 10 {
            return 53;
        }
        let length = u32::from_be_bytes([rest[0], rest[1], rest[2], rest[3]]);
        let two = |i: usize| u16::from_be_bytes([rest[i], rest[i + 1]]) as u32;
        let frame = ClipFrame { footprint: rest[4], kind: rest[5], width: two(6), height: two(8) };
        let mut refusal = frame.refusal();
        if refusal == 0 && length as u64 != 6 + 16 * frame.blocks() as u64 {
            refusal = 52;
        }
        if refusal != 0 {
            parsed.refusal = Some((refusal, at + 10));
            return refusal;
        }
        let all = 16 * frame.blocks();
        let here = &rest[10..rest.len().min(10 + all)];
        for (index, bytes) in here.chunks_exact(16).enumerate() {
            parsed.blocks.push(ClipBlock {
                frame_index: frame_index as u32,
                index: index as u32,
                frame,
                bytes: bytes.try_into().unwrap(),
                came: at + 10 + 16 * (index + 1),
            });
        }
        if here.len() < all {
            return 53;
        }
        at += 10 + all;
    }
    unreachable!()
}

/// The bytes of a frame for a result buffer of `room` bytes, or the refusal: 1 to 5.
pub fn clip_frame(frame: &ClipFrame, blocks: &[u8], room: usize) -> Result<Vec<u8>, u8> {
    match frame.refusal() {
        0 => {}
        refusal => return Err(refusal),
    }
    if blocks.len() != 16 * frame.blocks() {
        return Err(4);
    }
    if room != 10 + blocks.len() {
        return Err(5);
    }
    let mut bytes = (6 + blocks.len() as u32).to_be_bytes().to_vec();
    bytes.extend([frame.footprint, frame.kind]);
    bytes.extend((frame.width as u16).to_be_bytes());
    bytes.extend((frame.height as u16).to_be_bytes());
    bytes.extend(blocks);
    Ok(bytes)
}

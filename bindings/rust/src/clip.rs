//! Clips: frames of blocks that arrive in pieces of any size.
//!
//! ```
//! use stallbrook::clip::{Clip, Frame, write_frame};
//! use stallbrook::{Footprint, Kind, Refusal};
//!
//! // a clip of one frame: the version byte, and a 5 by 4 image of two 4x4 blocks
//! let frame = Frame { footprint: Footprint::F4x4, kind: Kind::Srgb8, width: 5, height: 4 };
//! let mut bytes = vec![0; 1 + 10 + 32];
//! bytes[0] = 1;
//! write_frame(frame, &[7; 32], &mut bytes[1..])?;
//!
//! // fed in pieces, each block is handed out as its sixteenth byte arrives
//! let mut clip = Clip::new();
//! let mut handed = Vec::new();
//! for piece in bytes.chunks(5) {
//!     for block in clip.blocks(piece) {
//!         handed.push(block?);
//!     }
//! }
//! clip.finish()?;
//! assert_eq!(handed.len(), 2);
//! assert_eq!((handed[1].frame_index, handed[1].index, handed[1].frame), (0, 1, frame));
//! // inside a frame `finish` is refused
//! let mut cut_off = Clip::new();
//! assert_eq!(cut_off.blocks(&bytes[..20]).count(), 0);
//! let error = cut_off.finish().unwrap_err();
//! assert_eq!(error, Refusal::ClipEnd);
//! assert_eq!(error.to_string(), "the clip ends inside a frame or before its version byte");
//! # Ok::<(), Refusal>(())
//! ```

use std::io::{self, Read};

use crate::{Footprint, Kind, Refusal, raw};

/// What a frame says of itself.
#[derive(Clone, Copy, PartialEq, Eq, Hash, Debug)]
pub struct Frame {
    /// How many texels a block covers.
    pub footprint: Footprint,
    /// In which kind it is meant to be shown.
    pub kind: Kind,
    /// In texels.
    pub width: u32,
    /// In texels.
    pub height: u32,
}

/// A block that is handed out.
#[derive(Clone, Copy, PartialEq, Eq, Debug)]
pub struct Block {
    /// The frame's index, modulo 2^32.
    pub frame_index: u32,
    /// The block's index in its frame.
    pub index: u32,
    /// Its frame.
    pub frame: Frame,
    /// The block.
    pub bytes: [u8; 16],
}

/// A reader of clips.
#[derive(Clone, PartialEq, Eq, Debug)]
pub struct Clip {
    state: [u32; 26],
}

impl Default for Clip {
    fn default() -> Clip {
        Clip::new()
    }
}

impl Clip {
    /// A fresh start.
    pub fn new() -> Clip {
        let mut state = [0; 26];
        raw::clip_start(&mut state);
        Clip { state }
    }

    /// Takes bytes from the front of a piece, up to the one that completes a block or a refusal, and leaves the rest in it.
    /// `Ok(None)`: nothing is handed out; the piece is then used up, unless the clip was finished, after which nothing is taken.
    ///
    /// ```
    /// use stallbrook::{Refusal, clip::Clip};
    /// let mut clip = Clip::new();
    /// let mut piece = &[1, 0, 0][..];
    /// assert_eq!(clip.feed(&mut piece), Ok(None));
    /// assert!(piece.is_empty());
    /// // another version is refused at the first byte, and again until a fresh start
    /// let mut other = Clip::new();
    /// assert_eq!(other.feed(&mut &[2][..]), Err(Refusal::ClipVersion));
    /// assert_eq!(other.finish(), Err(Refusal::ClipVersion));
    /// ```
    #[inline]
    pub fn feed(&mut self, piece: &mut &[u8]) -> Result<Option<Block>, Refusal> {
        let mut bytes = [0; 16];
        let mut told = [0; 8];
        let number = raw::clip_feed(&mut self.state, piece, &mut bytes, &mut told);
        let [taken, handed, frame_index, index, footprint, kind, width, height] = told;
        *piece = &piece[taken as usize..];
        Refusal::told(number)?;
        if handed != 1 {
            return Ok(None);
        }
        let (footprint, kind) = (Footprint::try_from(footprint as u8)?, Kind::try_from(kind as u8)?);
        let frame = Frame { footprint, kind, width: width as u32, height: height as u32 };
        Ok(Some(Block { frame_index: frame_index as u32, index: index as u32, frame, bytes }))
    }

    /// The blocks that a piece completes, and a refusal as the last.
    ///
    /// ```
    /// use stallbrook::{Refusal, clip::Clip};
    /// // the version byte, and a frame whose footprint is 14: refused by 1 at its tenth byte
    /// let piece = [1, 0, 0, 0, 22, 14, 0, 0, 4, 0, 4];
    /// assert_eq!(Clip::new().blocks(&piece).collect::<Vec<_>>(), [Err(Refusal::Footprint)]);
    /// ```
    #[inline]
    pub fn blocks<'a>(&'a mut self, piece: &'a [u8]) -> Blocks<'a> {
        Blocks { clip: self, rest: piece, over: false }
    }

    /// Says that the clip is finished: refused by 53 inside a frame or before the version byte, by its number after a refusal.
    pub fn finish(&mut self) -> Result<(), Refusal> {
        Refusal::told(raw::clip_finish(&mut self.state))
    }
}

/// The blocks that a piece completes.
pub struct Blocks<'a> {
    clip: &'a mut Clip,
    rest: &'a [u8],
    over: bool,
}

impl Iterator for Blocks<'_> {
    type Item = Result<Block, Refusal>;

    #[inline]
    fn next(&mut self) -> Option<Self::Item> {
        if self.over {
            return None;
        }
        let block = self.clip.feed(&mut self.rest).transpose();
        self.over = !matches!(block, Some(Ok(_)));
        block
    }
}

/// The blocks of a clip that any reader gives; at its end the clip is finished.
///
/// ```
/// use stallbrook::clip::{ClipReader, ReadError};
///
/// // the version byte alone is a clip without frames; a clip that ends inside a frame is refused by 53
/// assert_eq!(ClipReader::new(&[1u8][..]).count(), 0);
/// let last = ClipReader::new(&[1u8, 0, 0][..]).last();
/// assert!(matches!(last, Some(Err(ReadError::Clip(stallbrook::Refusal::ClipEnd)))));
/// ```
pub struct ClipReader<R> {
    source: R,
    clip: Clip,
    buffer: Vec<u8>,
    /// The part of the buffer that is not fed yet.
    left: std::ops::Range<usize>,
    over: bool,
}

/// Why a [`ClipReader`] ends early.
#[derive(Debug)]
pub enum ReadError {
    /// Reading failed.
    Io(io::Error),
    /// The clip was refused.
    Clip(Refusal),
}

impl std::fmt::Display for ReadError {
    fn fmt(&self, f: &mut std::fmt::Formatter) -> std::fmt::Result {
        match self {
            ReadError::Io(error) => error.fmt(f),
            ReadError::Clip(error) => error.fmt(f),
        }
    }
}

impl std::error::Error for ReadError {}

impl<R: Read> ClipReader<R> {
    /// Reads a clip from its first byte on.
    pub fn new(source: R) -> ClipReader<R> {
        ClipReader { source, clip: Clip::new(), buffer: vec![0; 65536], left: 0..0, over: false }
    }

    /// The next block, `None` at the end of a sound clip.
    fn step(&mut self) -> Result<Option<Block>, ReadError> {
        loop {
            let mut rest = &self.buffer[self.left.clone()];
            let block = self.clip.feed(&mut rest).map_err(ReadError::Clip)?;
            self.left.start = self.left.end - rest.len();
            if block.is_some() {
                return Ok(block);
            }
            let n = loop {
                match self.source.read(&mut self.buffer) {
                    Err(error) if error.kind() == io::ErrorKind::Interrupted => {}
                    answer => break answer.map_err(ReadError::Io)?,
                }
            };
            if n == 0 {
                return self.clip.finish().map(|()| None).map_err(ReadError::Clip);
            }
            self.left = 0..n;
        }
    }
}

impl<R: Read> Iterator for ClipReader<R> {
    type Item = Result<Block, ReadError>;

    fn next(&mut self) -> Option<Self::Item> {
        if self.over {
            return None;
        }
        let block = self.step().transpose();
        self.over = !matches!(block, Some(Ok(_)));
        block
    }
}

/// Writes a frame, after the caller's version byte or the frame before, into a buffer of exactly 10 bytes and the blocks.
///
/// ```
/// use stallbrook::clip::{Frame, write_frame};
/// use stallbrook::{Footprint, Kind, Refusal};
/// let frame = Frame { footprint: Footprint::F12x12, kind: Kind::Float16, width: 12, height: 12 };
/// let mut bytes = [0; 26];
/// write_frame(frame, &[7; 16], &mut bytes)?;
/// assert_eq!(bytes[..10], [0, 0, 0, 22, 13, 2, 0, 12, 0, 12]);
/// assert_eq!(write_frame(frame, &[7; 32], &mut bytes), Err(Refusal::Blocks));
/// # Ok::<(), Refusal>(())
/// ```
pub fn write_frame(frame: Frame, blocks: &[u8], out: &mut [u8]) -> Result<(), Refusal> {
    let (footprint, kind) = (frame.footprint.number(), frame.kind.number());
    Refusal::told(raw::clip_write_frame(footprint, kind, frame.width, frame.height, blocks, out))
}

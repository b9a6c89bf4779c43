//! Footprints, kinds, refusals and faults: the documents' numbers as types, with their words.

use std::ffi::CStr;
use std::fmt;

/// The library's sentence of a number.
fn text(number: u8) -> &'static str {
    let sentence = unsafe { CStr::from_ptr(crate::ffi::stallbrook_text(number)) };
    sentence.to_str().expect("the library's sentences are ASCII")
}

/// A number that is no fault, or no refusal.
#[derive(Clone, Copy, PartialEq, Eq, Debug)]
pub struct UnknownNumber(pub u8);

impl fmt::Display for UnknownNumber {
    fn fmt(&self, f: &mut fmt::Formatter) -> fmt::Result {
        write!(f, "{} is no number of this sort", self.0)
    }
}

impl std::error::Error for UnknownNumber {}

/// An enum whose variants have numbers.
macro_rules! numbered {
    ($(#[$about:meta])* $name:ident, $error:ty, $other:expr; $($(#[$of_case:meta])* $case:ident = $number:literal,)*) => {
        $(#[$about])*
        #[derive(Clone, Copy, PartialEq, Eq, PartialOrd, Ord, Hash, Debug)]
        #[repr(u8)]
        pub enum $name {
            $($(#[$of_case])* $case = $number,)*
        }

        impl $name {
            /// All of them, by number.
            pub const ALL: &[$name] = &[$($name::$case),*];

            /// The documents' number, which the C calls take and answer.
            pub const fn number(self) -> u8 {
                self as u8
            }
        }

        impl TryFrom<u8> for $name {
            type Error = $error;

            #[inline]
            fn try_from(number: u8) -> Result<$name, $error> {
                match number {
                    $($number => Ok($name::$case),)*
                    _ => Err($other(number)),
                }
            }
        }

        impl From<$name> for u8 {
            fn from(one: $name) -> u8 {
                one.number()
            }
        }
    };
}

numbered! {
    /// How many texels a block covers: those before [`F3x3x3`](Footprint::F3x3x3) are flat, the others volumes. A number above 23 is refused by 1, and
    /// a volume too where a call takes flat ones only.
    ///
    /// ```
    /// use stallbrook::{Footprint, Refusal};
    /// let footprint = Footprint::try_from(4)?;
    /// assert_eq!((footprint, footprint.width(), footprint.height()), (Footprint::F6x6, 6, 6));
    /// assert_eq!(footprint.to_string(), "6x6");
    /// let volume = Footprint::F5x4x4;
    /// assert_eq!((volume.width(), volume.height(), volume.depth()), (5, 4, 4));
    /// assert_eq!(volume.to_string(), "5x4x4");
    /// assert_eq!(Footprint::try_from(24), Err(Refusal::Footprint));
    /// # Ok::<(), Refusal>(())
    /// ```
    Footprint, Refusal, |_| Refusal::Footprint;
    /// 4 by 4 texels.
    F4x4 = 0,
    /// 5 by 4 texels.
    F5x4 = 1,
    /// 5 by 5 texels.
    F5x5 = 2,
    /// 6 by 5 texels.
    F6x5 = 3,
    /// 6 by 6 texels.
    F6x6 = 4,
    /// 8 by 5 texels.
    F8x5 = 5,
    /// 8 by 6 texels.
    F8x6 = 6,
    /// 8 by 8 texels.
    F8x8 = 7,
    /// 10 by 5 texels.
    F10x5 = 8,
    /// 10 by 6 texels.
    F10x6 = 9,
    /// 10 by 8 texels.
    F10x8 = 10,
    /// 10 by 10 texels.
    F10x10 = 11,
    /// 12 by 10 texels.
    F12x10 = 12,
    /// 12 by 12 texels.
    F12x12 = 13,
    /// 3 by 3 by 3 texels.
    F3x3x3 = 14,
    /// 4 by 3 by 3 texels.
    F4x3x3 = 15,
    /// 4 by 4 by 3 texels.
    F4x4x3 = 16,
    /// 4 by 4 by 4 texels.
    F4x4x4 = 17,
    /// 5 by 4 by 4 texels.
    F5x4x4 = 18,
    /// 5 by 5 by 4 texels.
    F5x5x4 = 19,
    /// 5 by 5 by 5 texels.
    F5x5x5 = 20,
    /// 6 by 5 by 5 texels.
    F6x5x5 = 21,
    /// 6 by 6 by 5 texels.
    F6x6x5 = 22,
    /// 6 by 6 by 6 texels.
    F6x6x6 = 23,
}

impl Footprint {
    const SIDES: [[u32; 3]; 24] = [
        [4, 4, 1],
        [5, 4, 1],
        [5, 5, 1],
        [6, 5, 1],
        [6, 6, 1],
        [8, 5, 1],
        [8, 6, 1],
        [8, 8, 1],
        [10, 5, 1],
        [10, 6, 1],
        [10, 8, 1],
        [10, 10, 1],
        [12, 10, 1],
        [12, 12, 1],
        [3, 3, 3],
        [4, 3, 3],
        [4, 4, 3],
        [4, 4, 4],
        [5, 4, 4],
        [5, 5, 4],
        [5, 5, 5],
        [6, 5, 5],
        [6, 6, 5],
        [6, 6, 6],
    ];

    /// Texels in a row of a block.
    pub const fn width(self) -> u32 {
        Footprint::SIDES[self as usize][0]
    }

    /// Rows of a block, of a volume those of a layer.
    pub const fn height(self) -> u32 {
        Footprint::SIDES[self as usize][1]
    }

    /// Layers of a block, 1 of a flat one.
    pub const fn depth(self) -> u32 {
        Footprint::SIDES[self as usize][2]
    }

    /// Whether a block has several layers.
    ///
    /// ```
    /// use stallbrook::Footprint;
    /// assert!(Footprint::F3x3x3.is_volume() && !Footprint::F12x12.is_volume());
    /// ```
    pub const fn is_volume(self) -> bool {
        self.depth() > 1
    }

    /// How many numbers a block's texels are, 4 for each.
    ///
    /// ```
    /// use stallbrook::Footprint;
    /// assert_eq!((Footprint::F12x12.numbers(), Footprint::F6x6x6.numbers()), (576, 864));
    /// ```
    pub fn numbers(self) -> usize {
        crate::raw::block_numbers(self.number()) as usize
    }

    /// The flat footprint of these sides, if there is one.
    ///
    /// ```
    /// use stallbrook::Footprint;
    /// assert_eq!(Footprint::of_sides(10, 8), Some(Footprint::F10x8));
    /// assert_eq!(Footprint::of_sides(8, 10), None);
    /// ```
    pub fn of_sides(width: u32, height: u32) -> Option<Footprint> {
        Footprint::of_three_sides(width, height, 1)
    }

    /// The footprint of these sides, if there is one; flat ones have depth 1.
    ///
    /// ```
    /// use stallbrook::Footprint;
    /// assert_eq!(Footprint::of_three_sides(6, 5, 5), Some(Footprint::F6x5x5));
    /// assert_eq!(Footprint::of_three_sides(6, 5, 1), Some(Footprint::F6x5));
    /// assert_eq!(Footprint::of_three_sides(5, 5, 6), None);
    /// ```
    pub fn of_three_sides(width: u32, height: u32, depth: u32) -> Option<Footprint> {
        let found = Footprint::SIDES.iter().position(|&sides| sides == [width, height, depth])?;
        Some(Footprint::ALL[found])
    }
}

impl fmt::Display for Footprint {
    fn fmt(&self, f: &mut fmt::Formatter) -> fmt::Result {
        write!(f, "{}x{}", self.width(), self.height())?;
        if self.is_volume() { write!(f, "x{}", self.depth()) } else { Ok(()) }
    }
}

numbered! {
    /// What a texel's four numbers are. A number above 2 is refused by 2.
    ///
    /// ```
    /// use stallbrook::{Kind, Refusal};
    /// assert_eq!(Kind::try_from(1), Ok(Kind::Srgb8));
    /// assert_eq!(Kind::Float16.to_string(), "float16");
    /// assert_eq!(Kind::try_from(3), Err(Refusal::Kind));
    /// ```
    Kind, Refusal, |_| Refusal::Kind;
    /// 16-bit numbers.
    Unorm16 = 0,
    /// Bytes, before the sRGB curve.
    Srgb8 = 1,
    /// Half floats as 16-bit patterns, of LDR and of HDR blocks.
    Float16 = 2,
}

impl fmt::Display for Kind {
    fn fmt(&self, f: &mut fmt::Formatter) -> fmt::Result {
        f.write_str(match self {
            Kind::Unorm16 => "unorm16",
            Kind::Srgb8 => "srgb8",
            Kind::Float16 => "float16",
        })
    }
}

numbered! {
    /// What is wrong with a block. It is told of the block, which shows the error colour; it is no refusal of the call.
    ///
    /// ```
    /// use stallbrook::Fault;
    /// assert_eq!(Fault::try_from(11), Ok(Fault::Reserved));
    /// assert_eq!(Fault::Grid.number(), 14);
    /// assert_eq!(Fault::Grid.to_string(), "the weight grid is larger than the footprint");
    /// ```
    #[non_exhaustive]
    Fault, UnknownNumber, UnknownNumber;
    /// Reserved block mode.
    Reserved = 11,
    /// Void extent with bad bits or extents.
    VoidExtent = 12,
    /// HDR void extent, which half floats alone show.
    HdrVoidExtent = 13,
    /// Weight grid wider, higher or deeper than the footprint.
    Grid = 14,
    /// More than 64 weights, both planes counted.
    Weights = 15,
    /// Weight bits below 24 or above 96.
    WeightBits = 16,
    /// Two planes with four partitions.
    Planes = 17,
    /// More than 18 endpoint numbers.
    Endpoints = 18,
    /// Too few bits for the endpoint numbers.
    EndpointBits = 19,
    /// An HDR endpoint mode, which half floats alone show.
    HdrMode = 20,
    /// Not what the writer makes from the block's own settings: told by the [strict reading](crate::strict) alone.
    NotCanonical = 21,
    /// BC7: a first byte of 0.
    Bc7Reserved = 71,
}

impl Fault {
    /// The fault that a call tells; 0 is none.
    #[inline]
    pub(crate) fn told(number: u8) -> Option<Fault> {
        match number {
            0 => None,
            _ => Some(Fault::try_from(number).expect("the library tells known faults")),
        }
    }
}

impl fmt::Display for Fault {
    fn fmt(&self, f: &mut fmt::Formatter) -> fmt::Result {
        f.write_str(text(self.number()))
    }
}

impl std::error::Error for Fault {}

macro_rules! refusals {
    ($($(#[$of_case:meta])* $case:ident = $number:literal,)*) => {
        /// Why a call did nothing. Result buffers stay as they were.
        ///
        /// ```
        /// use stallbrook::{Fault, Refusal};
        /// assert_eq!(Refusal::Side.number(), 3);
        /// assert_eq!(Refusal::Kind.to_string(), "the kind is above 2");
        /// assert_eq!(Refusal::try_from(44), Ok(Refusal::Place));
        /// // of a symbolic block, with the number of the fault
        /// assert_eq!(Refusal::Settings(Fault::Grid).number(), 14);
        /// ```
        #[derive(Clone, Copy, PartialEq, Eq, Hash, Debug)]
        #[non_exhaustive]
        pub enum Refusal {
            $($(#[$of_case])* $case,)*
            /// Of a symbolic block: a block with these settings has this fault (12, 14 to 20).
            Settings(Fault),
        }

        impl Refusal {
            /// The documents' number, which the C calls answer.
            pub const fn number(self) -> u8 {
                match self {
                    $(Refusal::$case => $number,)*
                    Refusal::Settings(fault) => fault.number(),
                }
            }
        }

        impl TryFrom<u8> for Refusal {
            type Error = UnknownNumber;

            #[inline]
            fn try_from(number: u8) -> Result<Refusal, UnknownNumber> {
                match number {
                    $($number => Ok(Refusal::$case),)*
                    _ => Fault::try_from(number).map(Refusal::Settings),
                }
            }
        }
    };
}

refusals! {
    /// Footprint above 23; a volume where a call takes flat ones only.
    Footprint = 1,
    /// Kind above 2.
    Kind = 2,
    /// A side of the image or volume is 0 or above 16,384, or the depth 0 or above 2,048.
    Side = 3,
    /// Block bytes not exactly 16 for each block; of PVRTC1 not 8 for each word.
    Blocks = 4,
    /// Another list is not exactly as long as said.
    Length = 5,
    /// Symbolic block: a field outside its limits, or an unused one not 0.
    Field = 31,
    /// Symbolic block: no block mode has this grid, range and planes.
    BlockMode = 32,
    /// Symbolic block: endpoint modes that do not fit the selector.
    Selector = 33,
    /// Symbolic block: an endpoint number or weight above its range, or an unused one not 0.
    Range = 34,
    /// Symbolic block: the HDR mark is set, and no partition's mode is HDR.
    HdrMark = 35,
    /// .astc file: fewer than 16 bytes.
    FileShort = 41,
    /// .astc file: another start than 13 AB A1 5C.
    FileStart = 42,
    /// .astc file: a footprint that is not in the list, or a depth or third size other than 1.
    FileFootprint = 43,
    /// One texel: outside the picture.
    Place = 44,
    /// A clip of another version.
    ClipVersion = 51,
    /// A frame's length is not 6 plus 16 for each block.
    FrameLength = 52,
    /// The clip ends inside a frame or before its version byte.
    ClipEnd = 53,
    /// PVRTC1: a side is not a power of two from 4 to 4,096.
    PvrtcSide = 61,
    /// BC7 sheet: a mode above 7.
    Bc7Mode = 72,
    /// BC7 sheet: a field or an anchor index beyond its bits in that mode, or an unused one not 0.
    Bc7Field = 73,
}

impl Refusal {
    /// What a call that refuses by every number but 0 answers.
    #[inline]
    pub(crate) fn told(number: u8) -> Result<(), Refusal> {
        match number {
            0 => Ok(()),
            _ => Err(Refusal::try_from(number).expect("the library tells known refusals")),
        }
    }
}

impl fmt::Display for Refusal {
    fn fmt(&self, f: &mut fmt::Formatter) -> fmt::Result {
        f.write_str(text(self.number()))
    }
}

impl std::error::Error for Refusal {}

/// Why a call that reads one block's settings has none: it was refused, or the block has a fault.
///
/// ```
/// use stallbrook::{Error, Fault, Footprint, Refusal, read_symbolic};
/// let error = read_symbolic(Footprint::F4x4, &[0; 16]).unwrap_err();
/// assert_eq!(error, Error::Faulty(Fault::Reserved));
/// assert_eq!(error.to_string(), "faulty block (11): the block mode is reserved");
/// assert_eq!(read_symbolic(Footprint::F4x4, &[0; 15]), Err(Error::Refused(Refusal::Blocks)));
/// ```
#[derive(Clone, Copy, PartialEq, Eq, Hash, Debug)]
pub enum Error {
    /// The call was refused and wrote nothing.
    Refused(Refusal),
    /// The block has a fault.
    Faulty(Fault),
}

impl Error {
    /// The documents' number.
    pub const fn number(self) -> u8 {
        match self {
            Error::Refused(refusal) => refusal.number(),
            Error::Faulty(fault) => fault.number(),
        }
    }
}

impl From<Refusal> for Error {
    fn from(refusal: Refusal) -> Error {
        Error::Refused(refusal)
    }
}

impl From<Fault> for Error {
    fn from(fault: Fault) -> Error {
        Error::Faulty(fault)
    }
}

impl fmt::Display for Error {
    fn fmt(&self, f: &mut fmt::Formatter) -> fmt::Result {
        let sort = match self {
            Error::Refused(_) => "refused",
            Error::Faulty(_) => "faulty block",
        };
        write!(f, "{sort} ({}): {}", self.number(), text(self.number()))
    }
}

impl std::error::Error for Error {}

/// What a call of one block tells: the refusals 1 to 5, or the block's fault.
#[inline]
pub(crate) fn of_block(number: u8) -> Result<Option<Fault>, Refusal> {
    match number {
        1..=5 => Err(Refusal::told(number).unwrap_err()),
        _ => Ok(Fault::told(number)),
    }
}

/// What a picture call tells of blocks with a fault.
///
/// ```
/// use stallbrook::{Fault, FirstFault, Footprint, Tally};
/// // three texels of a block of zeros, which has a reserved mode
/// let mut texels = [0u8; 4 * 3];
/// let tally = stallbrook::decode_image_srgb8(Footprint::F4x4, 3, 1, &[0; 16], &mut texels)?;
/// assert_eq!(tally, Tally { faulty: 1, first: Some(FirstFault { block: 0, fault: Fault::Reserved }) });
/// # Ok::<(), stallbrook::Refusal>(())
/// ```
#[derive(Clone, Copy, PartialEq, Eq, Hash, Debug, Default)]
pub struct Tally {
    /// How many blocks have a fault.
    pub faulty: u64,
    /// The first of them in the blocks' order; none where all blocks are sound.
    pub first: Option<FirstFault>,
}

/// The first block of a picture that has a fault.
#[derive(Clone, Copy, PartialEq, Eq, Hash, Debug)]
pub struct FirstFault {
    /// Its index in the blocks' order: raster order, of volumes x fastest, then y, then z.
    pub block: u64,
    /// Its fault.
    pub fault: Fault,
}

impl Tally {
    /// From a picture call's number and three numbers.
    pub(crate) fn told(number: u8, [faulty, block, fault]: [u64; 3]) -> Result<Tally, Refusal> {
        Refusal::told(number)?;
        let first = Fault::told(fault as u8).map(|fault| FirstFault { block, fault });
        Ok(Tally { faulty, first })
    }
}

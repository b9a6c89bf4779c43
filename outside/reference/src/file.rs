//! .astc files (02, a): the 16-byte header, read from a whole file and written.

use crate::FOOTPRINTS;
use crate::refusals::SIDES;

const START: [u8; 4] = [0x13, 0xAB, 0xA1, 0x5C];

/// What a header says.
#[derive(Clone, Copy, PartialEq, Eq, Debug, Default)]
pub struct FileHeader {
    pub footprint: u8,
    pub width: u32,
    pub height: u32,
}

/// The header of a whole file and the bytes of its blocks, or the refusal: 41, 42, 43, 3, 4.
pub fn read_file(file: &[u8]) -> Result<(FileHeader, &[u8]), u8> {
    let Some((header, blocks)) = file.split_first_chunk::<16>() else { return Err(41) };
    if header[..4] != START {
        return Err(42);
    }
    let size = |at: usize| u32::from_le_bytes([header[at], header[at + 1], header[at + 2], 0]);
    let sides = (header[4] as usize, header[5] as usize);
    let footprint = FOOTPRINTS.iter().position(|&f| f == sides).ok_or(43)?;
    let (depth, width, height, third) = (header[6], size(7), size(10), size(13));
    if depth != 1 || third != 1 {
        return Err(43);
    }
    if !SIDES.contains(&width) || !SIDES.contains(&height) {
        return Err(3);
    }
    let count = (width as usize).div_ceil(sides.0) * (height as usize).div_ceil(sides.1);
    if blocks.len() != 16 * count {
        return Err(4);
    }
    Ok((FileHeader { footprint: footprint as u8, width, height }, blocks))
}

/// The header of an image's file, or the refusal: 1, 3.
pub fn file_header(footprint: u8, width: u32, height: u32) -> Result<[u8; 16], u8> {
    let &(columns, rows) = FOOTPRINTS.get(footprint as usize).ok_or(1)?;
    if !SIDES.contains(&width) || !SIDES.contains(&height) {
        return Err(3);
    }
    let mut header = Vec::from(START);
    header.extend([columns as u8, rows as u8, 1]);
    for size in [width, height, 1] {
        header.extend(&size.to_le_bytes()[..3]);
    }
    Ok(header.try_into().unwrap())
}

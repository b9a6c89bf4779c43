//! Bits of a block: its settings, read once, and its fault.

use crate::sequence::bit_count;
use crate::tables::{BLOCK_MODES, BlockMode, ENDPOINT_RANGES, Grid, WEIGHT_RANGES};
use crate::{Kind, is_volume, sides_as};

/// A block without fault, its fields found.
pub enum Settings {
    VoidExtent { hdr: bool, colours: [u16; 4], extents: [u16; 6] },
    Mode(ModeSettings),
}

pub struct ModeSettings {
    pub grid: Grid,
    /// Weights of both planes.
    pub weight_count: usize,
    pub plane_channel: usize,
    pub partitions: usize,
    pub index: u16,
    pub selector: u16,
    pub modes: [u8; 4],
    pub endpoint_count: usize,
    /// Place in `ENDPOINT_RANGES`.
    pub endpoint_range: usize,
    /// First bit of the packed endpoint numbers.
    pub endpoint_start: u32,
    /// First bit above the spare bits: that of the plane channel, extra mode bits or weights.
    pub spare_end: u32,
}

/// Bits low.. of a block, `count` of them.
fn bits(block: u128, low: u32, count: u32) -> u32 {
    ((block >> low) & ((1 << count) - 1)) as u32
}

/// Endpoint numbers that a colour endpoint mode takes.
pub const fn numbers_of_mode(mode: u8) -> usize {
    2 * (mode as usize / 4 + 1)
}

pub const fn is_hdr(mode: u8) -> bool {
    matches!(mode, 2 | 3 | 7 | 11 | 14 | 15)
}

/// Place of the largest endpoint range whose n numbers fit into `left` bits.
pub fn endpoint_range(n: usize, left: i32) -> Option<usize> {
    (0..ENDPOINT_RANGES.len()).rev().find(|&r| bit_count(ENDPOINT_RANGES[r], n as u32) as i32 <= left)
}

/// How the extents of a void extent lie: low s, high s, low t, high t, and of a volume low r, high r.
pub struct Extents {
    /// Bit of the first.
    pub start: u32,
    /// Bits of each.
    pub bits: u32,
    pub count: usize,
}

impl Extents {
    pub const fn of(volume: bool) -> Extents {
        if volume { Extents { start: 10, bits: 9, count: 6 } } else { Extents { start: 12, bits: 13, count: 4 } }
    }

    /// The largest, all ones.
    pub const fn most(&self) -> u16 {
        (1 << self.bits) - 1
    }

    /// Neither all ones nor low < high on every axis (part of fault 12).
    #[inline]
    pub fn are_bad(&self, extents: [u16; 6]) -> bool {
        let used = &extents[..self.count];
        used.iter().any(|&e| e != self.most()) && used.chunks(2).any(|axis| axis[0] >= axis[1])
    }
}

/// The first fault of a block, or its settings; 13 and 20 only where HDR is not taken.
#[inline]
pub fn parse(footprint: usize, takes_hdr: bool, block: u128) -> Result<Settings, u8> {
    if is_volume(footprint) {
        parse_as::<true>(footprint, takes_hdr, block)
    } else {
        parse_as::<false>(footprint, takes_hdr, block)
    }
}

/// The same where it is known whether the footprint is a volume.
pub fn parse_as<const VOLUME: bool>(footprint: usize, takes_hdr: bool, block: u128) -> Result<Settings, u8> {
    let grid = match BLOCK_MODES[VOLUME as usize][bits(block, 0, 11) as usize] {
        BlockMode::Reserved => return Err(11),
        BlockMode::VoidExtent => {
            let layout = Extents::of(VOLUME);
            let mut extents = [0; 6];
            for (i, extent) in extents[..layout.count].iter_mut().enumerate() {
                *extent = bits(block, layout.start + layout.bits * i as u32, layout.bits) as u16;
            }
            let fixed = VOLUME || bits(block, 10, 2) == 3;
            if !fixed || layout.are_bad(extents) {
                return Err(12);
            }
            let hdr = bits(block, 9, 1) == 1;
            if hdr && !takes_hdr {
                return Err(13);
            }
            let colours = [0, 1, 2, 3].map(|i| bits(block, 64 + 16 * i, 16) as u16);
            return Ok(Settings::VoidExtent { hdr, colours, extents });
        }
        BlockMode::Grid(grid) => grid,
    };
    let [width, height, depth] = sides_as::<VOLUME>(footprint);
    if grid.width as usize > width || grid.height as usize > height || grid.depth as usize > depth {
        return Err(14);
    }
    let weight_count = grid.width as usize * grid.height as usize * grid.depth as usize * grid.planes as usize;
    if weight_count > 64 {
        return Err(15);
    }
    let weight_bits = bit_count(WEIGHT_RANGES[grid.range as usize], weight_count as u32);
    if !(24..=96).contains(&weight_bits) {
        return Err(16);
    }
    let partitions = bits(block, 11, 2) as usize + 1;
    let dual_plane = grid.planes == 2;
    if dual_plane && partitions == 4 {
        return Err(17);
    }

    // From here down: weights, extra mode bits, plane channel, spare bits, endpoint numbers.
    let mut below = 128 - weight_bits;
    let (mut index, mut selector, mut modes) = (0, 0, [0; 4]);
    let endpoint_start;
    if partitions == 1 {
        modes[0] = bits(block, 13, 4) as u8;
        endpoint_start = 17;
    } else {
        index = bits(block, 13, 10) as u16;
        selector = bits(block, 23, 2) as u16;
        endpoint_start = 29;
        let low = bits(block, 25, 4);
        if selector == 0 {
            modes[..partitions].fill(low as u8);
        } else {
            let extra = 3 * partitions as u32 - 4;
            below -= extra;
            // P class bits, then two mode bits for each partition.
            let field = bits(block, below, extra) << 4 | low;
            for (i, mode) in modes[..partitions].iter_mut().enumerate() {
                let class = selector as u32 - 1 + (field >> i & 1);
                *mode = (4 * class + (field >> (partitions + 2 * i) & 3)) as u8;
            }
        }
    }
    let mut plane_channel = 0;
    if dual_plane {
        below -= 2;
        plane_channel = bits(block, below, 2) as usize;
    }
    let endpoint_count = modes[..partitions].iter().map(|&m| numbers_of_mode(m)).sum::<usize>();
    if endpoint_count > 18 {
        return Err(18);
    }
    let left = below as i32 - endpoint_start as i32;
    if left < (13 * endpoint_count as i32 + 4) / 5 {
        return Err(19);
    }
    if !takes_hdr && modes[..partitions].iter().any(|&m| is_hdr(m)) {
        return Err(20);
    }
    // 0..5 always fits: it takes ceil(13C/5) bits.
    let endpoint_range = endpoint_range(endpoint_count, left).unwrap();
    Ok(Settings::Mode(ModeSettings {
        grid,
        weight_count,
        plane_channel,
        partitions,
        index,
        selector,
        modes,
        endpoint_count,
        endpoint_range,
        endpoint_start,
        spare_end: below,
    }))
}

/// The first fault (11 to 20) of a block at a footprint in a kind, 0 where there is none.
#[inline]
pub fn fault(footprint: usize, kind: Kind, block: &[u8; 16]) -> u8 {
    parse(footprint, kind.takes_hdr(), u128::from_le_bytes(*block)).err().unwrap_or(0)
}

//! Volumes of several blocks as astcenc shows them, and slices of flat footprints (README.md).

/// Places x, y, z that the program of make_volume_runs prints of each block, and after these the last of all: the first, all turns of 0, 1 and 2,
/// and one whose fractions may be equal.
pub const PLACES: [[usize; 3]; 8] =
    [[0, 0, 0], [0, 1, 2], [0, 2, 1], [1, 0, 2], [1, 2, 0], [2, 0, 1], [2, 1, 0], [1, 1, 1]];

/// Records: footprint, width, height and depth (2 bytes each), the blocks, then for each texel four half floats, then for each texel four sRGB
/// bytes. All numbers are little-endian.
const STORED: &[u8] = include_bytes!("../data/volume_pictures.bin");

/// Blocks and their picture.
pub struct StoredVolume {
    pub footprint: u8,
    /// Width, height and depth in texels.
    pub size: [u32; 3],
    pub blocks: &'static [u8],
    halves: &'static [u8],
    srgb: &'static [u8],
}

impl StoredVolume {
    /// How many numbers its texels are.
    pub fn numbers(&self) -> usize {
        self.srgb.len()
    }

    /// Whether these are its texels in kinds 0, 1 and 2.
    pub fn shows(&self, unorm16: &[u16], srgb8: &[u8], float16: &[u16]) -> bool {
        srgb8 == self.srgb && crate::are_half_floats(self.halves, unorm16, float16)
    }
}

/// All stored volumes.
pub fn stored() -> Vec<StoredVolume> {
    let mut data = STORED;
    let mut volumes = Vec::new();
    while !data.is_empty() {
        let head = crate::record(&mut data, 8);
        let [footprint, size @ ..] = [0, 2, 4, 6].map(|at: usize| u16::from_le_bytes([head[at], head[at + 1]]) as u32);
        let sides = crate::FOOTPRINTS[footprint as usize];
        let blocks: usize = size.iter().zip(sides).map(|(&side, block)| (side as usize).div_ceil(block)).product();
        let blocks = crate::record(&mut data, 16 * blocks);
        let texels = size.iter().product::<u32>() as usize;
        let (halves, srgb) = (crate::record(&mut data, 8 * texels), crate::record(&mut data, 4 * texels));
        volumes.push(StoredVolume { footprint: footprint as u8, size, blocks, halves, srgb });
    }
    volumes
}

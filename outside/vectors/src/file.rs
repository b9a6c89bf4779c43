//! .astc files as astcenc writes them, and what it shows of them (README.md).

/// Records: length of the file (4 bytes), footprint, width and height (2 bytes each), the file, then for each texel four half floats, then
/// for each texel four sRGB bytes. All numbers are little-endian.
const STORED: &[u8] = include_bytes!("../data/files.bin");

/// A file and its picture.
pub struct StoredFile {
    pub footprint: u8,
    pub width: u32,
    pub height: u32,
    pub bytes: &'static [u8],
    halves: &'static [u8],
    srgb: &'static [u8],
}

impl StoredFile {
    /// How many numbers its texels are.
    pub fn numbers(&self) -> usize {
        4 * self.width as usize * self.height as usize
    }

    /// The colours of its texels as sRGB bytes.
    pub fn colours(&self) -> Vec<u8> {
        self.srgb.chunks(4).flat_map(|t| &t[..3]).copied().collect()
    }

    /// Its texels as half floats.
    pub fn half_floats(&self) -> Vec<u16> {
        crate::half_floats(self.halves)
    }

    /// Whether these are its texels in kinds 0, 1 and 2.
    pub fn shows(&self, unorm16: &[u16], srgb8: &[u8], float16: &[u16]) -> bool {
        srgb8 == self.srgb && crate::are_half_floats(self.halves, unorm16, float16)
    }
}

/// All stored files.
pub fn stored() -> Vec<StoredFile> {
    let mut data = STORED;
    let mut files = Vec::new();
    while !data.is_empty() {
        let head = crate::record(&mut data, 10);
        let two = |at: usize| u16::from_le_bytes([head[at], head[at + 1]]);
        let length = u32::from_le_bytes([head[0], head[1], head[2], head[3]]) as usize;
        let (width, height) = (two(6) as u32, two(8) as u32);
        let bytes = crate::record(&mut data, length);
        let texels = width as usize * height as usize;
        let (halves, srgb) = (crate::record(&mut data, 8 * texels), crate::record(&mut data, 4 * texels));
        files.push(StoredFile { footprint: two(4) as u8, width, height, bytes, halves, srgb });
    }
    files
}

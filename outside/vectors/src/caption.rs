//! Best grey captions by what astcenc shows (README.md).

/// Ends, wanted greys, block and texels, R, G, B, A, rows first.
const STORED: &[u8] = include_bytes!("../data/captions.bin");

pub struct Caption {
    pub ends: &'static [u8; 2],
    pub wanted: &'static [u8; 16],
    pub block: &'static [u8; 16],
    pub texels: &'static [u8; 64],
}

pub fn stored() -> impl Iterator<Item = Caption> {
    STORED.as_chunks::<98>().0.iter().map(|record| {
        let (ends, rest) = record.split_first_chunk().unwrap();
        let (wanted, rest) = rest.split_first_chunk().unwrap();
        let (block, texels) = rest.split_first_chunk().unwrap();
        Caption { ends, wanted, block, texels: texels.try_into().unwrap() }
    })
}

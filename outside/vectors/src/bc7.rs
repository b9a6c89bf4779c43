//! BC7 blocks and what Pillow shows of them (README.md).

/// Block and texels, R, G, B, A, rows first.
const STORED: &[u8] = include_bytes!("../data/bc7.bin");

pub fn stored() -> impl Iterator<Item = (&'static [u8; 16], &'static [u8; 64])> {
    STORED.as_chunks::<80>().0.iter().map(|record| {
        let (block, texels) = record.split_at(16);
        (block.try_into().unwrap(), texels.try_into().unwrap())
    })
}

/// Whether the number told and the bytes left are those that the vector demands: Pillow shows a reserved block as opaque
/// black, where 02 says 0, 0, 0, 0 and fault 71.
pub fn agrees(block: &[u8; 16], texels: &[u8; 64], number: u8, out: &[u8; 64]) -> bool {
    if block[0] != 0 {
        return number == 0 && out == texels;
    }
    number == 71 && *out == [0; 64] && texels.as_chunks::<4>().0.iter().all(|t| *t == [0, 0, 0, 255])
}

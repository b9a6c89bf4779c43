//! Decodes a volume of 3 by 3 by 6 texels, two blocks of 3x3x3 behind each other of which the second is damaged; prints how many blocks are bad and
//! the first of them, and the greys of the first block's layers.

use stallbrook::{Footprint, Refusal, decode_volume_srgb8, volume_blocks, volume_numbers};

fn main() -> Result<(), Refusal> {
    let mut blocks = [0; 32];
    blocks[..16].copy_from_slice(&[0x13, 0, 0, 0xFE, 1, 0, 0, 0, 0, 0, 0, 0, 0, 0x5F, 0x63, 0x11]);
    assert_eq!(volume_blocks(Footprint::F3x3x3, 3, 3, 6), Some(2));
    let mut texels = vec![0; volume_numbers(3, 3, 6).expect("sides that are taken")];
    let tally = decode_volume_srgb8(Footprint::F3x3x3, 3, 3, 6, &blocks, &mut texels)?;
    if let Some(first) = tally.first {
        println!("{} of 2 blocks are bad, first block {}: {}", tally.faulty, first.block, first.fault);
    }
    for layer in texels.chunks(4 * 9).take(3) {
        let row = |row: &[u8]| row.chunks(4).map(|t| format!("{:3}", t[0])).collect::<Vec<_>>().join(" ");
        println!("{}", layer.chunks(4 * 3).map(row).collect::<Vec<_>>().join("  |  "));
    }
    Ok(())
}

//! Decodes one block of 4x4 texels and prints it as the program `unpack` does.

use stallbrook::{Footprint, Refusal};

fn main() -> Result<(), Refusal> {
    let block = [0x42, 0, 0, 0xFE, 1, 0, 0, 0, 0, 0, 0, 0, 0, 0, 0, 0x80];
    let mut texels = [0; 4 * 16];
    let fault = stallbrook::decode_block_srgb8(Footprint::F4x4, &block, &mut texels)?;
    println!("fault {}", fault.map_or(0, |fault| fault.number()));
    for (i, texel) in texels.chunks(4).enumerate() {
        println!("{} {} {} {} {} {}", i % 4, i / 4, texel[0], texel[1], texel[2], texel[3]);
    }
    Ok(())
}

//! Decodes an image of 8 by 4 texels, two blocks of 4x4 of which the second is damaged; prints which blocks are bad, and the top row.

use stallbrook::{Footprint, Kind, Refusal, view::View};

fn main() -> Result<(), Refusal> {
    let mut blocks = [0; 32];
    blocks[..16].copy_from_slice(&[0x42, 0, 0, 0xFE, 1, 0, 0, 0, 0, 0, 0, 0, 0, 0, 0, 0x80]);
    let view = View::new(&blocks, Footprint::F4x4, 8, 4)?;
    let (texels, _tally) = view.to_srgb8();
    for (i, fault) in view.faults(Kind::Srgb8).into_iter().enumerate() {
        if let Some(fault) = fault {
            println!("block {i} is bad: {fault}");
        }
    }
    let row: Vec<String> =
        texels[..4 * 8].chunks(4).map(|t| format!("({} {} {} {})", t[0], t[1], t[2], t[3])).collect();
    println!("{}", row.join(" "));
    Ok(())
}

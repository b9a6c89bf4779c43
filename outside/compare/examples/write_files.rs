//! Writes .astc files of every footprint with the library's header writer, and beside each (.shown) its sides (4 bytes each), all its numbers
//! in kind 0 (2 bytes each) and in kind 1, as the library shows them; numbers are little-endian. `vectors/make_files` holds them to astcenc:
//! cargo run --release --example write_files -- DIRECTORY
use std::path::Path;

use reference::random::{Random, symbolic_block};
use reference::{FOOTPRINTS, write};

fn main() -> std::io::Result<()> {
    let directory = std::env::args().nth(1).expect("a directory");
    let mut r = Random(41);
    for (footprint, &(columns, rows)) in FOOTPRINTS.iter().enumerate() {
        for (n, (width, height)) in [(3 * columns + 1, 2 * rows + 3), (columns - 1, 2 * rows)].into_iter().enumerate() {
            let count = width.div_ceil(columns) * height.div_ceil(rows);
            let blocks = (0..count).flat_map(|_| write(footprint, &symbolic_block(&mut r, footprint)).unwrap());
            let sort = library::Footprint::try_from(footprint as u8).unwrap();
            let header = library::file::write_header(sort, width as u32, height as u32).unwrap();
            let file: Vec<u8> = header.into_iter().chain(blocks).collect();
            let (mut numbers, mut bytes) = (vec![0; 4 * width * height], vec![0; 4 * width * height]);
            assert_eq!(library::file::decode_unorm16(&file, &mut numbers).unwrap().faulty, 0);
            assert_eq!(library::file::decode_srgb8(&file, &mut bytes).unwrap().faulty, 0);
            let mut shown = [width as u32, height as u32].map(u32::to_le_bytes).concat();
            shown.extend(numbers.iter().flat_map(|c| c.to_le_bytes()));
            shown.extend(bytes);
            let path = Path::new(&directory).join(format!("{columns}x{rows}_{n}.ours.astc"));
            std::fs::write(path.with_extension("astc.shown"), shown)?;
            std::fs::write(path, file)?;
        }
    }
    Ok(())
}

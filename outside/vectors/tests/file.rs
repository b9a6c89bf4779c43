//! The reference opens the stored files and shows them as astcenc does; every footprint is among them.

use reference::{FileHeader, decode_image_f16, decode_image_u8, decode_image_u16, file_header, read_file};

#[test]
fn reference_agrees() {
    let mut footprints = std::collections::BTreeSet::new();
    for file in vectors::file::stored() {
        let (header, blocks) = read_file(file.bytes).unwrap();
        let said = FileHeader { footprint: file.footprint, width: file.width, height: file.height };
        assert_eq!(header, said);
        assert_eq!(file_header(said.footprint, said.width, said.height).unwrap(), file.bytes[..16]);
        let (mut numbers, mut bytes) = (vec![0; file.numbers()], vec![0; file.numbers()]);
        let (f, w, h) = (said.footprint as usize, said.width as usize, said.height as usize);
        decode_image_u16(f, w, h, blocks, &mut numbers);
        decode_image_u8(f, w, h, blocks, &mut bytes);
        let mut halves = vec![0; file.numbers()];
        decode_image_f16(f, w, h, blocks, &mut halves);
        assert!(file.shows(&numbers, &bytes, &halves), "{said:?}");
        footprints.insert(said.footprint);
    }
    assert!(footprints.into_iter().eq(0..14));
}

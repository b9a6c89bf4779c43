//! The reference agrees with the stored BC7 vectors, which hold every mode, partition, rotation and index selection.

use reference::bc7::{MODES, decode, fault, read};

#[test]
fn reference_agrees() {
    let mut seen = std::collections::BTreeSet::new();
    for (block, texels) in vectors::bc7::stored() {
        let out = decode(block);
        let out: &[u8; 64] = out.as_flattened().try_into().unwrap();
        assert!(vectors::bc7::agrees(block, texels, fault(block), out), "{block:02X?}");
        match read(block) {
            Ok(s) => seen.insert((s.mode, s.partition, s.rotation, s.selection)),
            Err(_) => seen.insert((8, 0, 0, 0)),
        };
    }
    let all: usize = MODES.iter().map(|m| 1 << (m.partition_bits + m.rotation_bits + m.selection_bits)).sum();
    assert_eq!(seen.len(), all + 1);
}

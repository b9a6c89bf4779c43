//! 02, b: the strict reading, by reading, writing and comparing; and the canonical form.

use crate::{Kind, fault, read, write};

/// What the writer makes from the block's own symbolic block; `None` where the block has a fault by kind 2's list.
pub fn canonical(footprint: usize, block: &[u8; 16]) -> Option<[u8; 16]> {
    let s = read(footprint, block).ok()?;
    Some(write(footprint, &s).expect("what was read is acceptable"))
}

/// The fault by the strict reading: 21, last in order, where the block is not its own canonical form.
pub fn strict_fault(footprint: usize, kind: Kind, block: &[u8; 16]) -> u8 {
    match fault(footprint, kind, block) {
        0 if canonical(footprint, block) != Some(*block) => 21,
        fault => fault,
    }
}

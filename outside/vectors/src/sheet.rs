//! Symbolic blocks for the programs that print texels.

use reference::SymbolicBlock;
use reference::random::{HDR_MODES, one_partition};
use reference::tables::{Grid, WEIGHT_RANGES};

/// Sides of the grid, weight range, planes and channel, partitions and index, their mode, endpoint numbers. The weights go through their range.
#[allow(clippy::too_many_arguments)]
pub fn sheet(
    grid: [u8; 3], range: u8, planes: u8, channel: u16, partitions: u16, index: u16, mode: u16, endpoints: &[u16],
) -> SymbolicBlock {
    let [width, height, depth] = grid;
    let mut s = one_partition(Grid { width, height, depth, range, planes });
    (s.plane_channel, s.partitions, s.index) = (channel, partitions, index);
    s.modes[..partitions as usize].fill(mode);
    s.hdr = HDR_MODES.contains(&(mode as u8)) as u16;
    s.endpoints[..endpoints.len()].copy_from_slice(endpoints);
    let most = WEIGHT_RANGES[range as usize].most as usize;
    // at 4x4 the four texels that are looked at have all four weights
    for k in 0..s.weight_count() {
        s.weights[k] = ((k * k + 3 * k + 1 + k / 4) % (most + 1)) as u16;
    }
    s
}

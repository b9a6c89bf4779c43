//! The reference agrees with the stored vectors.

use std::collections::BTreeSet;

use reference::hdr::submodes;
use reference::random::{HDR_MODES, block_modes, one_partition, twin};
use reference::tables::BlockMode;
use reference::{ALL_FOOTPRINTS, FOOTPRINTS, Kind, SymbolicBlock, fault, read, refusal};
use vectors::{Decoder, Files, STORED, STORED_VOLUMES, check, texels};

#[test]
fn reference_agrees() {
    let decoder =
        Decoder { unorm16: &reference::decode_u16, srgb8: &reference::decode_u8, float16: &reference::decode_f16 };
    for files in [STORED, STORED_VOLUMES] {
        let outcome = check(&decoder, &files);
        println!("passed {:?}", outcome.passed);
        assert!(outcome.failed.is_empty(), "{} failed, first {:?}", outcome.failed.len(), outcome.failed.first());
        assert!(outcome.passed.iter().all(|&n| n > 0));
    }
}

/// Footprints and blocks of files, whose records have so many bytes for each texel and so many more behind the block.
fn blocks(files: &[(&[u8], usize, usize)]) -> Vec<(usize, [u8; 16])> {
    let mut found = Vec::new();
    for &(mut file, texel, more) in files {
        while !file.is_empty() {
            let footprint = file[0] as usize;
            found.push((footprint, file[1..17].try_into().unwrap()));
            file = &file[17 + texel * texels(footprint) + more..];
        }
    }
    found
}

/// At every footprint every submode of each HDR mode; LDR partitions beside HDR ones; two planes with each channel, mode 14 among them; NaN,
/// infinities and negative numbers in void extents.
fn hdr_of_all_sorts(files: Files, footprints: std::ops::Range<usize>) {
    let all = blocks(&[(files.float16, 8, 0), (files.float16_digests, 0, 4)]);
    for footprint in footprints {
        let here = all.iter().filter(|(f, _)| *f == footprint).map(|(f, block)| read(*f, block).unwrap());
        let here: Vec<SymbolicBlock> = here.collect();
        assert!(here.iter().all(|s| s.hdr == 1));
        let coded: Vec<&SymbolicBlock> = here.iter().filter(|s| s.mark == 0).collect();
        let found: BTreeSet<(u8, usize)> = coded.iter().flat_map(|s| s.hdr_submodes()).collect();
        for mode in HDR_MODES {
            for sub in 0..submodes(mode) {
                assert!(found.contains(&(mode, sub)), "mode {mode}, submode {sub} at footprint {footprint}");
            }
        }
        let mixed = |s: &&&SymbolicBlock| (1..s.partitions as usize).contains(&s.hdr_submodes().len());
        for partitions in 2..=4 {
            assert!(coded.iter().filter(mixed).any(|s| s.partitions == partitions));
        }
        for channel in 0..4 {
            assert!(coded.iter().any(|s| s.planes == 2 && s.plane_channel == channel));
        }
        assert!(coded.iter().any(|s| s.planes == 2 && s.modes[0] == 14 && s.plane_channel == 3));
        let colours = || here.iter().filter(|s| s.mark == 1).flat_map(|s| s.colours);
        assert!(colours().any(|c| c & 0x7FFF > 0x7C00 && c & 0x200 == 0));
        assert!(colours().any(|c| c & 0x7FFF > 0x7C00 && c & 0x200 != 0));
        assert!(colours().any(|c| c & 0x7FFF == 0x7C00));
        assert!(colours().any(|c| c > 0x8000 && c < 0xFC00));
    }
}

#[test]
fn hdr_vectors_are_of_all_sorts() {
    hdr_of_all_sorts(STORED, 0..FOOTPRINTS.len());
    hdr_of_all_sorts(STORED_VOLUMES, FOOTPRINTS.len()..ALL_FOOTPRINTS);
}

/// At every volume footprint every block mode that a block without fault can have, both of two that say the same among them; one to four partitions;
/// two planes with each channel; all LDR endpoint modes; void extents with extents and without; and every fault.
#[test]
fn volume_vectors_are_of_all_sorts() {
    let sound = blocks(&[(STORED_VOLUMES.texels, 12, 0), (STORED_VOLUMES.digests, 0, 8)]);
    let faulty = blocks(&[(STORED_VOLUMES.illegal, 0, 0), (STORED_VOLUMES.hdr, 0, 0)]);
    for footprint in FOOTPRINTS.len()..ALL_FOOTPRINTS {
        let here = || sound.iter().filter(|(f, _)| *f == footprint).map(|(_, block)| *block);
        let sheets: Vec<SymbolicBlock> = here().map(|block| read(footprint, &block).unwrap()).collect();
        let coded = || sheets.iter().filter(|s| s.mark == 0);
        let wanted = (0..2048).filter(|&mode| match block_modes(footprint)[mode] {
            BlockMode::Grid(grid) => refusal(footprint, &one_partition(grid)) == 0,
            _ => false,
        });
        let mode = |block: [u8; 16]| u16::from_le_bytes([block[0], block[1] & 7]) as usize;
        let found: BTreeSet<usize> = here().map(mode).filter(|mode| mode & 511 != 508).collect();
        assert!(found.into_iter().eq(wanted), "footprint {footprint}");
        // 6x2x2 and its turns fit as far as the footprint has a side of 6; 24 weights of the six low ranges have 24 bits at least
        let sixes = reference::sides(footprint).into_iter().filter(|&side| side == 6).count();
        let doubles: BTreeSet<usize> = here().filter(|&block| twin(footprint, block).is_some()).map(mode).collect();
        assert_eq!(doubles.len(), 12 * sixes);
        let partitions: BTreeSet<u16> = coded().map(|s| s.partitions).collect();
        assert!(partitions.into_iter().eq(1..=4));
        let channels: BTreeSet<u16> = coded().filter(|s| s.planes == 2).map(|s| s.plane_channel).collect();
        assert!(channels.into_iter().eq(0..4));
        let modes: BTreeSet<u16> = coded().flat_map(|s| s.modes[..s.partitions as usize].to_vec()).collect();
        assert_eq!(modes.len(), 16 - HDR_MODES.len());
        let void = || sheets.iter().filter(|s| s.mark == 1);
        assert!(void().any(|s| s.extents == [511; 6]) && void().any(|s| s.extents != [511; 6]));

        let here = faulty.iter().filter(|(f, _)| *f == footprint);
        let faults: BTreeSet<u8> = here.map(|(f, block)| fault(*f, Kind::Unorm16, block)).collect();
        // two planes of 3x3x3 have 54 weights, and no grid is larger than 6x6x6
        let possible =
            (11..=20).filter(|&fault| (footprint, fault) != (14, 15) && (footprint, fault) != (23, 14)).collect();
        assert_eq!(faults, possible, "footprint {footprint}");
    }
}

//! How often each fault, refusal, mode, footprint and setting occurred.

use std::collections::{BTreeMap, BTreeSet};

use reference::hdr::submodes;
use reference::random::{HDR_MODES, block_modes, one_partition, spare_edges, twin};
use reference::tables::{BlockMode, Digit, ENDPOINT_RANGES};
use reference::{
    ALL_FOOTPRINTS, FOOTPRINTS, Kind, NUMBERS, SymbolicBlock, endings, fault, is_volume, present, read, read_spare,
    sides, write,
};

const FAULTS: [u32; 10] = [11, 12, 13, 14, 15, 16, 17, 18, 19, 20];
/// Those of kind 2.
const HDR_FAULTS: [u32; 8] = [11, 12, 14, 15, 16, 17, 18, 19];

/// Digits present in the cut group, plus 10 for trits and 20 for quints, plus 100 where a missing digit is not zero.
const CUT: [&str; 2] = [
    "cut group of endpoint numbers: digits present, plus 10 for trits, 20 for quints, plus 100 where a missing one is not zero",
    "cut group of weights: digits present, plus 10 for trits, 20 for quints, plus 100 where a missing one is not zero",
];

/// The largest flat footprint and the largest volume, which have every block mode that one of their sort has.
const LARGEST: usize = FOOTPRINTS.len() - 1;
const LARGEST_VOLUME: usize = ALL_FOOTPRINTS - 1;

/// Every count of spare bits that some block without fault has.
fn possible_spare(footprint: usize) -> BTreeSet<u32> {
    let mut counts = BTreeSet::new();
    for mode in possible(footprint) {
        let mut s = grid_of(footprint, mode).expect("a grid");
        for partitions in 1..=4 {
            s.partitions = partitions;
            for selector in 0..if partitions == 1 { 1 } else { 4u16 } {
                s.selector = selector;
                // Classes of the first partitions, all alike but for the selector's own class in some of them.
                for class in 0..4u16 {
                    for upper in 0..=partitions {
                        let (low, high) = if selector == 0 { (class, class) } else { (selector - 1, selector) };
                        s.modes = std::array::from_fn(|i| match i as u16 {
                            i if i >= partitions => 0,
                            i if i < upper => 4 * high,
                            _ => 4 * low,
                        });
                        if reference::refusal(footprint, &s) == 0 {
                            counts.insert(s.spare_count() as u32);
                        }
                    }
                }
            }
        }
    }
    counts
}

const VOLUME_MODE: &str = "volume's block without fault, 10000 times its footprint and its block mode";
const VOLUME_HDR_MODE: &str = "volume's HDR block without fault, 10000 times its footprint and its block mode";

/// A submode of an HDR endpoint mode as one number.
fn submode_number(mode: u8, submode: usize) -> u32 {
    1000 * mode as u32 + submode as u32
}

/// Counts by sort and number. What must occur is there from the start, with count 0.
pub struct Seen(BTreeMap<(&'static str, u32), u64>);

impl Seen {
    pub fn new() -> Seen {
        let mut seen = Seen(BTreeMap::new());
        seen.require("block, footprint", 0..ALL_FOOTPRINTS as u32);
        seen.require("block, fault", [0].into_iter().chain(FAULTS));
        seen.require("block, fault in kind 2", [0].into_iter().chain(HDR_FAULTS));
        seen.require("block without fault in kind 2, fault in kinds 0 and 1", [0, 13, 20]);
        seen.require("block call, refusal", [0, 1, 4, 5]);
        seen.require("read call, refusal", [0, 1, 4, 5]);
        seen.require("read call, spare list not of 2 numbers, refusal", [1, 4, 5]);
        seen.require("spare bits, how many", possible_spare(LARGEST));
        seen.require("spare bits of a volume's block, how many", possible_spare(LARGEST_VOLUME));
        seen.require("spare bits, set: 0 none, 1 the lowest alone, 2 the highest alone, 3 others", 0..4);
        for sort in CUT {
            seen.require(sort, (11..15).chain(21..23).flat_map(|n| [n, 100 + n]));
        }
        seen.require("image call, refusal", [0, 1, 3, 4, 5]);
        seen.require("image call, tally not of 3 numbers, refusal", [1, 3, 4, 5]);
        seen.require("image, footprint", 0..14);
        seen.require("image, first fault", [0].into_iter().chain(FAULTS));
        seen.require("image, first fault in kind 2", [0].into_iter().chain(HDR_FAULTS));
        seen.require("image, first faulty block not the first block", [1]);
        seen.require("image, several faulty blocks", [1]);
        seen.require("image, 11000 wide", [1]);
        seen.require("image, side of 16384", [1]);
        seen.require("write call, refusal", [0, 1, 4, 5, 12, 14, 15, 16, 17, 18, 19, 20, 31, 32, 33, 34, 35]);
        seen.require(
            "symbolic block, HDR mark and some HDR mode: 0 neither, 1 the mode, 2 the mark, 3 both; refusal",
            [0, 120, 235, 300],
        );
        seen.require("symbolic block, mark without HDR mode, also 34", [34]);
        seen.require("symbolic block, HDR mode without mark, also 34", [20]);
        seen.require(
            "symbolic block, mark without HDR mode, an endpoint number above 255 whose range reaches 255",
            [34],
        );
        seen.require("symbolic block, HDR mark of a void extent; refusal", [0, 100, 12, 112, 231]);
        seen.require("symbolic block, HDR mark above 1", [31]);
        seen.require("written block, footprint", 0..ALL_FOOTPRINTS as u32);
        seen.require("place of a number above 255", 0..NUMBERS as u32);
        // At most eight endpoint numbers have eight bits each.
        seen.require("place of an endpoint number above 255 whose range reaches 255", 21..29);
        seen.require("any block mode", 0..2048);
        seen.require("block mode without fault", possible(LARGEST));
        seen.require("colour endpoint mode", 0..16);
        seen.require("colour endpoint mode of a refused symbolic block", HDR_MODES.map(u32::from));
        for mode in HDR_MODES {
            seen.require(
                "1000 times HDR endpoint mode, and submode",
                (0..submodes(mode)).map(|n| submode_number(mode, n)),
            );
        }
        seen.require("LDR partitions beside HDR ones, partitions", 2..5);
        seen.require("HDR block, plane channel", 0..4);
        seen.require("HDR block mode without fault", possible(LARGEST));
        seen.require("void extent, HDR mark", 0..2);
        seen.require("HDR void extent, colour: 0 finite, 1 infinite, 2 a quiet NaN, 3 another NaN, 4 negative", 0..5);
        seen.require("partitions", 1..5);
        seen.require("planes", 1..3);
        seen.require("plane channel", 0..4);
        seen.require("selector", 0..4);
        seen.require("partition index", 0..1024);
        seen.require("weight range", 0..12);
        seen.require("endpoint range", ENDPOINT_RANGES.iter().map(|e| e.most as u32));
        seen.require("void extent", 0..2);
        seen.require("block is what the writer makes", 0..2);
        seen.require_volumes();
        crate::volume::require(&mut seen);
        crate::pvrtc::require(&mut seen);
        crate::caption::require(&mut seen);
        crate::view::require(&mut seen);
        crate::faults::require(&mut seen);
        crate::strict::require(&mut seen);
        for (sort, numbers) in crate::clip::SORTS {
            seen.require(sort, numbers.iter().copied());
        }
        seen
    }

    /// 02, h: blocks and symbolic blocks of volumes.
    fn require_volumes(&mut self) {
        self.require("volume's block, fault", [0].into_iter().chain(FAULTS));
        self.require("volume's block, fault in kind 2", [0].into_iter().chain(HDR_FAULTS));
        self.require("volume's block, any block mode", 0..2048);
        for f in FOOTPRINTS.len()..ALL_FOOTPRINTS {
            self.require(VOLUME_MODE, possible(f).map(|mode| 10_000 * f as u32 + mode));
            self.require(VOLUME_HDR_MODE, possible(f).map(|mode| 10_000 * f as u32 + mode));
        }
        self.require("volume's block, of two block modes: 0 the smaller, 1 the larger", 0..2);
        self.require("volume's block is what the writer makes", 0..2);
        self.require("volume's block, colour endpoint mode", 0..16);
        self.require("volume's block, partitions", 1..5);
        self.require("3x3x3 block, partitions", 1..5);
        self.require("volume's block, partition index", 0..1024);
        self.require("volume's block, plane channel", 0..4);
        self.require("volume's block, weight range", 0..12);
        self.require("volume's void extent, 1 where it is all ones, plus 10 where it is HDR", [0, 1, 10, 11]);
        self.require("write call at a volume, refusal", [0, 12, 14, 15, 16, 17, 18, 19, 20, 31, 32, 33, 34, 35]);
        self.require("grid larger than a volume on one axis alone, nothing before it", 0..3);
        self.require("grid larger than a flat footprint on one axis alone, nothing before it", 0..2);
        self.require("flat mode block refused by its depth alone, depth at most 7", [0, 2, 3, 4, 5, 6, 7]);
        self.require("volume's mode block refused by its depth alone, depth at most 7", [0, 1, 7]);
        self.require("volume's mode block, a side of the grid from 7 to 12, refusal", [32]);
        self.require("void extent refused by its depth alone: 0 flat, 1 of a volume", 0..2);
        self.require("flat void extent refused by an extent of the third axis alone", [4, 5]);
        self.require("volume's void extent refused by an extent above 511 alone", 0..6);
        self.require("volume's void extent, bad on one axis alone", 0..3);
    }

    pub fn require(&mut self, sort: &'static str, numbers: impl IntoIterator<Item = u32>) {
        for number in numbers {
            self.0.insert((sort, number), 0);
        }
    }

    pub fn count(&mut self, sort: &'static str, number: u32) {
        *self.0.entry((sort, number)).or_insert(0) += 1;
    }

    /// A block that the one-block calls got.
    pub fn block(&mut self, footprint: usize, block: &[u8; 16]) {
        self.count("block, footprint", footprint as u32);
        if is_volume(footprint) {
            return self.volume_block(footprint, block);
        }
        let number = fault(footprint, Kind::Unorm16, block) as u32;
        self.count("block, fault", number);
        let hdr_number = fault(footprint, Kind::Float16, block) as u32;
        self.count("block, fault in kind 2", hdr_number);
        if hdr_number == 0 {
            self.count("block without fault in kind 2, fault in kinds 0 and 1", number);
        }
        let mode = block[0] as u32 | (block[1] as u32 & 7) << 8;
        self.count("any block mode", mode);
        let Ok(s) = read(footprint, block) else { return };
        self.spare(footprint, block);
        self.count("block is what the writer makes", (write(footprint, &s) == Ok(*block)) as u32);
        self.count("void extent", s.mark as u32);
        if s.mark == 1 {
            self.count("void extent, HDR mark", s.hdr as u32);
            if s.hdr == 1 {
                self.solid(s.colours);
            }
            return;
        }
        if s.hdr == 1 {
            self.count("HDR block mode without fault", mode);
            let found = s.hdr_submodes();
            for &(mode, submode) in &found {
                self.count("1000 times HDR endpoint mode, and submode", submode_number(mode, submode));
            }
            if found.len() < s.partitions as usize {
                self.count("LDR partitions beside HDR ones, partitions", s.partitions as u32);
            }
            if s.planes == 2 {
                self.count("HDR block, plane channel", s.plane_channel as u32);
            }
        }
        self.count("block mode without fault", mode);
        for &mode in &s.modes[..s.partitions as usize] {
            self.count("colour endpoint mode", mode as u32);
        }
        self.count("partitions", s.partitions as u32);
        self.count("planes", s.planes as u32);
        if s.planes == 2 {
            self.count("plane channel", s.plane_channel as u32);
        }
        if s.partitions > 1 {
            self.count("selector", s.selector as u32);
            self.count("partition index", s.index as u32);
        }
        self.count("weight range", s.range as u32);
        self.count("endpoint range", s.endpoint_most() as u32);
    }

    /// A block of a volume that the one-block calls got.
    fn volume_block(&mut self, footprint: usize, block: &[u8; 16]) {
        self.count("volume's block, fault", fault(footprint, Kind::Unorm16, block) as u32);
        self.count("volume's block, fault in kind 2", fault(footprint, Kind::Float16, block) as u32);
        let mode = block[0] as u32 | (block[1] as u32 & 7) << 8;
        self.count("volume's block, any block mode", mode);
        let Ok(s) = read(footprint, block) else { return };
        self.spare(footprint, block);
        self.count("volume's block is what the writer makes", (write(footprint, &s) == Ok(*block)) as u32);
        if s.mark == 1 {
            let sort = "volume's void extent, 1 where it is all ones, plus 10 where it is HDR";
            self.count(sort, (s.extents == [511; 6]) as u32 + 10 * s.hdr as u32);
            return;
        }
        let number = 10_000 * footprint as u32 + mode;
        self.count(if s.hdr == 1 { VOLUME_HDR_MODE } else { VOLUME_MODE }, number);
        if let Some(twin) = twin(footprint, *block) {
            let larger = mode > (twin[0] as u32 | (twin[1] as u32 & 7) << 8);
            self.count("volume's block, of two block modes: 0 the smaller, 1 the larger", larger as u32);
        }
        for &mode in &s.modes[..s.partitions as usize] {
            self.count("volume's block, colour endpoint mode", mode as u32);
        }
        self.count("volume's block, partitions", s.partitions as u32);
        if footprint == FOOTPRINTS.len() {
            self.count("3x3x3 block, partitions", s.partitions as u32);
        }
        if s.partitions > 1 {
            self.count("volume's block, partition index", s.index as u32);
        }
        if s.planes == 2 {
            self.count("volume's block, plane channel", s.plane_channel as u32);
        }
        self.count("volume's block, weight range", s.range as u32);
    }

    /// 02, g: the spare bits of a block without fault, and where its two sequences ended.
    fn spare(&mut self, footprint: usize, block: &[u8; 16]) {
        let Some(ends) = endings(footprint, block) else { return };
        let (_, spare) = read_spare(footprint, block).expect("a block without fault");
        if is_volume(footprint) {
            return self.count("spare bits of a volume's block, how many", spare.count as u32);
        }
        self.count("spare bits, how many", spare.count as u32);
        if spare.count > 0 {
            let edges = spare_edges(footprint, *block);
            let sort = if !spare.set { 0 } else { 1 + edges[..2].iter().position(|e| e == block).unwrap_or(2) };
            self.count("spare bits, set: 0 none, 1 the lowest alone, 2 the highest alone, 3 others", sort as u32);
        }
        for ((encoding, n, ending), sort) in ends.into_iter().zip(CUT) {
            let present = present(encoding, n) as u32;
            if present > 0 {
                let kind = if encoding.digit == Digit::Trit { 10 } else { 20 };
                self.count(sort, kind + present + if ending.zero { 0 } else { 100 });
            }
        }
    }

    /// The colours of an HDR void extent.
    fn solid(&mut self, colours: [u16; 4]) {
        for c in colours {
            let sort = match c & 0x7FFF {
                0x7C00 => 1,
                0x7E00.. => 2,
                0x7C01.. => 3,
                _ => {
                    if c > 0x8000 {
                        4
                    } else {
                        0
                    }
                }
            };
            self.count("HDR void extent, colour: 0 finite, 1 infinite, 2 a quiet NaN, 3 another NaN, 4 negative", sort);
        }
    }

    /// The HDR mark of numbers that the writer got, and whether it is their only fault.
    fn hdr_mark(&mut self, footprint: usize, s: &SymbolicBlock, refusal: u8) {
        if s.hdr > 1 {
            self.count("symbolic block, HDR mark above 1", refusal as u32);
        }
        if s.mark == 1 {
            let mark = 100 * s.hdr.min(2) as u32;
            self.count("symbolic block, HDR mark of a void extent; refusal", mark + refusal as u32);
        }
        if s.mark != 0 || s.hdr > 1 || !(1..=4).contains(&s.partitions) {
            return;
        }
        let state = s.some_hdr() as u32 + 2 * s.hdr as u32;
        let right = SymbolicBlock { hdr: s.some_hdr() as u16, ..*s };
        match (state, reference::refusal(footprint, &right)) {
            (_, 0) => self.count(
                "symbolic block, HDR mark and some HDR mode: 0 neither, 1 the mode, 2 the mark, 3 both; refusal",
                100 * state + refusal as u32,
            ),
            (1, 34) => self.count("symbolic block, HDR mode without mark, also 34", refusal as u32),
            (2, 34) => self.count("symbolic block, mark without HDR mode, also 34", refusal as u32),
            _ => {}
        }
        let clipped = SymbolicBlock { endpoints: s.endpoints.map(|n| n.min(255)), ..right };
        if state == 2 && clipped != right && reference::refusal(footprint, &clipped) == 0 {
            let sort = "symbolic block, mark without HDR mode, an endpoint number above 255 whose range reaches 255";
            self.count(sort, refusal as u32);
        }
    }

    /// 02, h: limits of depth and extents, where nothing else is wrong.
    fn limits(&mut self, footprint: usize, s: &SymbolicBlock, refusal: u8) {
        let volume = is_volume(footprint);
        let accepted = |right: SymbolicBlock| reference::refusal(footprint, &right) == 0;
        if s.mark == 1 && refusal == 31 {
            if s.depth != 0 && accepted(SymbolicBlock { depth: 0, ..*s }) {
                self.count("void extent refused by its depth alone: 0 flat, 1 of a volume", volume as u32);
            }
            let most = |i: usize| match i {
                _ if volume => 511,
                0..4 => 8191,
                _ => 0,
            };
            let above: Vec<usize> = (0..6).filter(|&i| s.extents[i] > most(i)).collect();
            let right = SymbolicBlock { extents: std::array::from_fn(|i| s.extents[i].min(most(i))), ..*s };
            if let ([place], true) = (&above[..], reference::refusal(footprint, &right) != 31) {
                if volume {
                    self.count("volume's void extent refused by an extent above 511 alone", *place as u32);
                } else if *place > 3 {
                    self.count("flat void extent refused by an extent of the third axis alone", *place as u32);
                }
            }
        }
        if s.mark == 1 && refusal == 12 && volume {
            let bad: Vec<usize> = (0..3).filter(|a| s.extents[2 * a] >= s.extents[2 * a + 1]).collect();
            if let [axis] = bad[..] {
                self.count("volume's void extent, bad on one axis alone", axis as u32);
            }
        }
        if s.mark == 0 && refusal == 31 && s.depth <= 7 {
            let good = if volume { 2..=6 } else { 1..=1 };
            if !good.contains(&s.depth) && good.clone().any(|depth| accepted(SymbolicBlock { depth, ..*s })) {
                let sort = if volume {
                    "volume's mode block refused by its depth alone, depth at most 7"
                } else {
                    "flat mode block refused by its depth alone, depth at most 7"
                };
                self.count(sort, s.depth as u32);
            }
        }
        if s.mark == 0 && volume && [s.width, s.height].iter().any(|side| (7..=12).contains(side)) && refusal != 31 {
            self.count("volume's mode block, a side of the grid from 7 to 12, refusal", refusal as u32);
        }
        if s.mark == 0 && refusal == 14 {
            let grid = [s.width, s.height, s.depth];
            let large: Vec<usize> = (0..3).filter(|&a| grid[a] as usize > sides(footprint)[a]).collect();
            if let [axis] = large[..] {
                let sort = if volume {
                    "grid larger than a volume on one axis alone, nothing before it"
                } else {
                    "grid larger than a flat footprint on one axis alone, nothing before it"
                };
                self.count(sort, axis as u32);
            }
        }
    }

    /// Numbers that the writer got, and its refusal of them.
    pub fn symbolic(&mut self, footprint: u8, s: &SymbolicBlock, refusal: u8) {
        if (footprint as usize) < ALL_FOOTPRINTS {
            self.limits(footprint as usize, s, refusal);
            if is_volume(footprint as usize) {
                self.count("write call at a volume, refusal", refusal as u32);
            }
        }
        let large = |n: &u16| *n > 255;
        for (place, _) in s.to_numbers().iter().enumerate().filter(|(_, n)| large(n)) {
            self.count("place of a number above 255", place as u32);
        }
        self.hdr_mark(footprint as usize, s, refusal);
        if refusal == 34 {
            // With 255 for each, it is acceptable: nothing but the numbers above 255 is wrong.
            let clipped = SymbolicBlock { endpoints: s.endpoints.map(|n| n.min(255)), ..*s };
            if reference::refusal(footprint as usize, &clipped) == 0 {
                for (i, _) in s.endpoints.iter().enumerate().filter(|(_, n)| large(n)) {
                    self.count("place of an endpoint number above 255 whose range reaches 255", 21 + i as u32);
                }
            }
        }
        if refusal == 0 {
            self.count("written block, footprint", footprint as u32);
        }
        if refusal == 20 {
            for &mode in &s.modes {
                if HDR_MODES.contains(&(mode as u8)) {
                    self.count("colour endpoint mode of a refused symbolic block", mode as u32);
                }
            }
        }
    }

    /// Prints the counts; answers what never occurred.
    pub fn report(&self) -> Vec<String> {
        let mut never = Vec::new();
        let mut sorts: BTreeMap<&str, Vec<(u32, u64)>> = BTreeMap::new();
        for (&(sort, number), &count) in &self.0 {
            sorts.entry(sort).or_default().push((number, count));
            if count == 0 {
                never.push(format!("never seen: {sort} {number}"));
            }
        }
        for (sort, counts) in sorts {
            if counts.len() > 40 {
                let least = counts.iter().map(|c| c.1).min().unwrap();
                let total: u64 = counts.iter().map(|c| c.1).sum();
                println!("{sort}: {} of them, {total} times, each at least {least}", counts.len());
            } else {
                let counts: Vec<String> = counts.iter().map(|(n, c)| format!("{n}: {c}")).collect();
                println!("{sort}: {}", counts.join(", "));
            }
        }
        never
    }
}

/// The block modes that some block without fault has at a footprint.
fn possible(footprint: usize) -> impl Iterator<Item = u32> {
    (0..2048).filter(move |&mode| grid_of(footprint, mode).is_some_and(|s| reference::refusal(footprint, &s) == 0))
}

/// The grid of a block mode, with one partition.
fn grid_of(footprint: usize, mode: u32) -> Option<SymbolicBlock> {
    let BlockMode::Grid(grid) = block_modes(footprint)[mode as usize] else { return None };
    Some(one_partition(grid))
}

//! BC7: the library against the reference and the vectors. Edge cases first; a sort of case that never occurred counts as a failure.

use std::collections::BTreeMap;

use reference::bc7::{
    MODES, Sheet, block_refusal, decode, decode_image, fault, image_refusal, picture, random_sheet, read, refusal,
    write,
};
use reference::random::Random;

/// Filled before each call, so that bytes left alone are seen.
const FILL: u8 = 0xA5;

pub struct Outcome {
    pub passed: u64,
    pub failed: u64,
}

struct Run {
    outcome: Outcome,
    /// What must occur, and how often it did.
    seen: BTreeMap<(&'static str, u32), u64>,
}

impl Run {
    fn new() -> Run {
        let mut run = Run { outcome: Outcome { passed: 0, failed: 0 }, seen: BTreeMap::new() };
        let sorts: [(&'static str, Vec<u32>); 17] = [
            ("picture call", vec![0, 3, 4, 5]),
            ("picture call, tally not of 3 numbers", vec![3, 4, 5]),
            ("picture, side modulo 4", (0..4).collect()),
            ("picture, faulty blocks", vec![0, 1, 2]),
            ("picture, first faulty block", vec![0, 1]),
            ("picture, side of 16384", vec![1]),
            ("block call", vec![0, 4, 5, 71]),
            ("read call", vec![0, 4, 5, 71]),
            ("write call", vec![0, 4, 5, 72, 73]),
            ("mode of a block", (0..8).collect()),
            ("partition of two subsets", (0..64).collect()),
            ("partition of three subsets", (0..64).collect()),
            ("rotation", (0..4).collect()),
            ("selection", vec![0, 1]),
            ("number refused by 73", (1..60).collect()),
            ("anchor index one bit too wide", vec![0, 1, 2]),
            ("mode of a refused sheet", (0..8).collect()),
        ];
        for (sort, numbers) in sorts {
            for n in numbers {
                run.seen.insert((sort, n), 0);
            }
        }
        run
    }

    fn count(&mut self, sort: &'static str, number: u32) {
        *self.seen.entry((sort, number)).or_insert(0) += 1;
    }

    fn expect(&mut self, what: &str, input: &[u8], agrees: bool) {
        if agrees {
            self.outcome.passed += 1;
        } else {
            self.outcome.failed += 1;
            if self.outcome.failed <= 5 {
                println!("FAILED: BC7, {what}, {input:02X?}");
            }
        }
    }

    /// A block of any length, with buffers of any lengths: the one-block call and the reader.
    fn block(&mut self, block: &[u8], out_len: usize, numbers_len: usize) {
        let whole: Option<&[u8; 16]> = block.try_into().ok();
        let mut out = vec![FILL; out_len];
        let number = library::bc7::raw::decode_block(block, &mut out);
        let (expected, bytes) = match (block_refusal(block.len(), out_len), whole) {
            (0, Some(block)) => (fault(block), decode(block).as_flattened().to_vec()),
            (refused, _) => (refused, vec![FILL; out_len]),
        };
        self.count("block call", expected as u32);
        self.expect("block call", block, number == expected && out == bytes);

        let mut numbers = vec![FILL; numbers_len];
        let number = library::bc7::raw::read_symbolic(block, &mut numbers);
        let sheet = whole.map(read);
        let expected = match sheet {
            None => 4,
            Some(_) if numbers_len != 60 => 5,
            Some(Ok(_)) => 0,
            Some(Err(fault)) => fault,
        };
        let list = match sheet {
            _ if numbers_len != 60 => vec![FILL; numbers_len],
            Some(Ok(sheet)) => sheet.to_numbers().to_vec(),
            _ => vec![0; 60],
        };
        self.count("read call", expected as u32);
        self.expect("read call", block, number == expected && numbers == list);

        if let Some(Ok(s)) = sheet {
            let m = &MODES[s.mode as usize];
            self.count("mode of a block", s.mode as u32);
            match m.subsets {
                2 => self.count("partition of two subsets", s.partition as u32),
                3 => self.count("partition of three subsets", s.partition as u32),
                _ => {}
            }
            if m.rotation_bits > 0 {
                self.count("rotation", s.rotation as u32);
            }
            if m.selection_bits > 0 {
                self.count("selection", s.selection as u32);
            }
            // Reading and writing are inverse, in the library and in the reference.
            let mut again = [FILL; 16];
            let told = library::bc7::raw::write_symbolic(&numbers, &mut again);
            self.expect("written again", block, numbers_len != 60 || told == 0 && again == block);
            self.expect("written again by the reference", block, write(&s) == Ok(again) || numbers_len != 60);
        }
    }

    /// A picture of any sides, with buffers of any length.
    fn image(&mut self, width: u32, height: u32, blocks: &[u8], out_len: usize, tally_len: usize) {
        let mut out = vec![FILL; out_len];
        let mut tally = vec![FILL as u64; tally_len];
        let number = library::bc7::raw::decode_image(width, height, blocks, &mut out, &mut tally);
        let refused = image_refusal(width, height, blocks.len(), out_len);
        let (mut texels, mut told, mut after) = (vec![FILL; out_len], refused, vec![FILL as u64; tally_len]);
        if tally_len != 3 {
            told = if refused == 0 { 5 } else { refused };
            self.count("picture call, tally not of 3 numbers", told as u32);
        } else if refused == 0 {
            let faults = decode_image(width, height, blocks, &mut texels);
            after = vec![faults.faulty, faults.first_index, faults.first_fault as u64];
            self.count("picture, side modulo 4", width % 4);
            self.count("picture, side modulo 4", height % 4);
            self.count("picture, faulty blocks", faults.faulty.min(2) as u32);
            self.count("picture, first faulty block", faults.first_index.min(1) as u32);
            self.count("picture, side of 16384", (width == 16384 || height == 16384) as u32);
        } else {
            after = vec![0; 3];
        }
        self.count("picture call", told as u32);
        self.expect("picture call", blocks, number == told && out == texels && tally == after);
    }

    /// Sixty numbers, or some other count, and a block of any length: the writer.
    fn numbers(&mut self, numbers: &[u8], block_len: usize) {
        let mut block = vec![FILL; block_len];
        let number = library::bc7::raw::write_symbolic(numbers, &mut block);
        let sheet = numbers.try_into().ok().map(Sheet::from_numbers);
        let (expected, bytes) = match sheet {
            _ if block_len != 16 => (4, vec![FILL; block_len]),
            None => (5, vec![FILL; 16]),
            Some(s) => match write(&s) {
                Ok(block) => (0, block.to_vec()),
                Err(refused) => (refused, vec![0; 16]),
            },
        };
        self.count("write call", expected as u32);
        self.expect("write call", numbers, number == expected && block == bytes);
        if let (0, Some(s)) = (expected, sheet) {
            let mut out = [FILL; 64];
            let shown = library::bc7::raw::decode_block(&block, &mut out);
            self.expect("picture", numbers, shown == 0 && out == *picture(&s).as_flattened());
        }
    }

    /// A sheet with one number changed.
    fn changed(&mut self, sheet: &Sheet, at: usize, to: u8) {
        let mut numbers = sheet.to_numbers();
        numbers[at] = to;
        let s = Sheet::from_numbers(&numbers);
        if refusal(&s) == 73 {
            self.count("number refused by 73", at as u32);
            self.count("mode of a refused sheet", s.mode as u32);
        }
        self.numbers(&numbers, 16);
    }
}

/// Every first byte, every mode with every partition, every number at its limits.
fn edges(run: &mut Run, r: &mut Random) {
    for byte in 0..=255u8 {
        let mut block = r.bytes();
        block[0] = byte;
        run.block(&block, 64, 60);
        run.block(&[byte; 16], 64, 60);
    }
    for (mode, m) in MODES.iter().enumerate() {
        for partition in 0..1u32 << m.partition_bits {
            let mut s = random_sheet(r, mode as u8);
            if m.partition_bits > 0 {
                let mut fresh = Sheet { mode: mode as u8, partition: partition as u8, ..Sheet::ZERO };
                fresh.endpoints = s.endpoints;
                fresh.p_bits = s.p_bits;
                s = fresh;
            }
            // Each anchor index with its top bit set is refused.
            for texel in 0..16 {
                if m.is_anchor(partition as usize, texel) {
                    let top = 1 << (m.index_bits[0] - 1);
                    let mut numbers = s.to_numbers();
                    numbers[28 + texel] = top;
                    if refusal(&Sheet::from_numbers(&numbers)) == 73 {
                        run.count("anchor index one bit too wide", m.subset(partition as usize, texel) as u32);
                    }
                    run.numbers(&numbers, 16);
                }
            }
            run.numbers(&s.to_numbers(), 16);
            if let Ok(block) = write(&s) {
                run.block(&block, 64, 60);
            }
        }
        let s = random_sheet(r, mode as u8);
        for at in 0..60 {
            for to in [0, 1, 2, 3, 4, 7, 8, 15, 16, 31, 32, 63, 64, 127, 128, 255] {
                run.changed(&s, at, to);
            }
        }
    }
    // 72 comes before 73.
    for mode in [8, 9, 127, 255] {
        let mut s = Sheet { mode, ..Sheet::ZERO };
        run.numbers(&s.to_numbers(), 16);
        s.rotation = 255;
        run.numbers(&s.to_numbers(), 16);
    }
    for len in [0, 1, 15, 16, 17, 32] {
        for out_len in [0, 63, 64, 65] {
            for numbers_len in [0, 59, 60, 61] {
                let block: Vec<u8> = (0..len).map(|_| r.word() as u8).collect();
                run.block(&block, out_len, numbers_len);
                run.numbers(&vec![0; numbers_len], len);
            }
        }
    }
}

/// A picture's blocks, some of them reserved.
fn picture_blocks(r: &mut Random, width: u32, height: u32) -> Vec<u8> {
    let count = (width.div_ceil(4) * height.div_ceil(4)) as usize;
    let reserved = r.below(4);
    (0..count)
        .flat_map(|_| {
            let mut block = r.bytes();
            block[0] = if r.below(8) < reserved { 0 } else { 1 << r.below(8) };
            block
        })
        .collect()
}

/// Every small picture, the largest sides, and calls that are refused.
fn pictures(run: &mut Run, r: &mut Random) {
    for width in 1..=13 {
        for height in 1..=13 {
            let blocks = picture_blocks(r, width, height);
            run.image(width, height, &blocks, (4 * width * height) as usize, 3);
        }
    }
    for (width, height) in [(16384, 1), (1, 16384), (11_000, 3), (1, 1)] {
        let blocks = picture_blocks(r, width, height);
        run.image(width, height, &blocks, (4 * width * height) as usize, 3);
    }
    for (width, height) in [(0, 1), (1, 0), (16385, 1), (1, 16385), (65536, 4), (5, 4), (4, 5)] {
        for bytes in [0, 15, 16, 17, 32] {
            for out_len in [0, 79, 80, 81] {
                for tally_len in [0, 2, 3, 4] {
                    run.image(width, height, &vec![1; bytes], out_len, tally_len);
                }
            }
        }
    }
    for _ in 0..2_000 {
        let (width, height) = (1 + r.below(60) as u32, 1 + r.below(60) as u32);
        let blocks = picture_blocks(r, width, height);
        run.image(width, height, &blocks, (4 * width * height) as usize, 3);
    }
}

fn vectors(run: &mut Run) {
    let mut agree = 0;
    for (block, texels) in vectors::bc7::stored() {
        let mut out = [FILL; 64];
        let number = library::bc7::raw::decode_block(block, &mut out);
        let agrees = vectors::bc7::agrees(block, texels, number, &out);
        run.expect("vector", block, agrees);
        agree += agrees as u64;
    }
    println!("BC7 vectors agree: {agree}");
}

/// So many blocks, and a sheet for every second one.
pub fn run(seed: u64, blocks: u64) -> Outcome {
    let mut r = Random(seed);
    let mut run = Run::new();
    vectors(&mut run);
    edges(&mut run, &mut r);
    pictures(&mut run, &mut r);
    for i in 0..blocks {
        let mode = r.below(8);
        let mut block = r.bytes();
        block[0] = ((block[0] as u32 >> (mode + 1) << (mode + 1)) | 1 << mode) as u8;
        run.block(&block, 64, 60);
        if i % 2 == 0 {
            let s = random_sheet(&mut r, mode as u8);
            run.numbers(&s.to_numbers(), 16);
            run.changed(&s, r.below(60), r.word() as u8);
        }
    }
    for ((sort, number), _) in run.seen.iter().filter(|(_, count)| **count == 0) {
        println!("never occurred: BC7, {sort} {number}");
        run.outcome.failed += 1;
    }
    println!("BC7: {} passed, {} failed", run.outcome.passed, run.outcome.failed);
    run.outcome
}

//! Compares the proved library with the vectors and the reference: compare [--seed N] [--blocks N]

mod bc7;
mod caption;
mod cases;
mod clip;
mod faults;
mod file;
mod make;
mod pvrtc;
mod seen;
mod strict;
mod view;
mod volume;

use std::time::{SystemTime, UNIX_EPOCH};

use cases::{BlockCase, Case, ImageCase, SymbolicCase, shrink};
use reference::random::Random;
use reference::{NUMBERS, block_refusal};
use seen::Seen;

/// Failing cases that are made smaller and printed; the others are only counted.
const PRINTED: u64 = 5;

struct Run {
    seen: Seen,
    passed: u64,
    failed: u64,
    /// Failing cases printed so far.
    printed: u64,
    /// Blocks that the one-block calls got, without the vectors.
    blocks: u64,
}

impl Run {
    fn case(&mut self, case: impl Case) {
        let Some(difference) = case.difference() else {
            self.passed += 1;
            return;
        };
        self.failed += 1;
        if self.printed < PRINTED {
            self.printed += 1;
            println!("FAILED: {difference}\n{case}");
            let small = shrink(case);
            println!("smallest found: {}\n{small}", small.difference().unwrap_or_default());
        }
    }

    fn block(&mut self, case: BlockCase) {
        let (f, len) = (case.footprint as usize, case.block.len());
        self.seen.count("block call, refusal", block_refusal(f, len, case.out_len) as u32);
        self.seen.count("read call, refusal", case.read_refusal() as u32);
        if case.spare_len != 2 && case.numbers_len == NUMBERS {
            self.seen.count("read call, spare list not of 2 numbers, refusal", case.read_refusal() as u32);
        }
        if let Some(block) = case.whole() {
            self.seen.block(f, block);
            self.blocks += 1;
        }
        self.case(case);
    }

    fn symbolic(&mut self, case: SymbolicCase) {
        let refusal = case.written().err().unwrap_or(0);
        self.seen.count("write call, refusal", refusal as u32);
        if let Some(s) = case.whole() {
            self.seen.symbolic(case.footprint, &s, refusal);
        }
        self.case(case);
    }

    fn image(&mut self, case: ImageCase) {
        let refusal = case.refusal();
        self.seen.count("image call, refusal", refusal as u32);
        if case.tally_len != 3 {
            self.seen.count("image call, tally not of 3 numbers, refusal", refusal as u32);
        }
        if refusal == 0 {
            let tally = case.tally();
            self.seen.count("image, footprint", case.footprint as u32);
            self.seen.count("image, first fault", tally.first_fault as u32);
            self.seen.count("image, first fault in kind 2", case.float16_tally().first_fault as u32);
            self.seen.count("image, first faulty block not the first block", (tally.first_index > 0) as u32);
            self.seen.count("image, several faulty blocks", (tally.faulty > 1) as u32);
            self.seen.count("image, 11000 wide", (case.width == 11_000) as u32);
            self.seen.count("image, side of 16384", (case.width == 16384 || case.height == 16384) as u32);
        }
        self.case(case);
    }
}

/// The stored vectors against the library.
fn vectors(run: &mut Run) {
    let decoder = vectors::Decoder {
        unorm16: &|footprint, block, out| library::raw::decode_block_unorm16(footprint as u8, block, out),
        srgb8: &|footprint, block, out| library::raw::decode_block_srgb8(footprint as u8, block, out),
        float16: &|footprint, block, out| library::raw::decode_block_float16(footprint as u8, block, out),
    };
    for (name, files) in [("vectors", vectors::STORED), ("vectors of volumes", vectors::STORED_VOLUMES)] {
        let outcome = vectors::check(&decoder, &files);
        let [texels, digests, illegal, hdr, float16, float16_digests] = outcome.passed;
        println!("{name} agree: texels {texels}, digests {digests}, illegal {illegal}, HDR {hdr}");
        println!("{name} agree in kind 2, HDR blocks: texels {float16}, digests {float16_digests}");
        for line in outcome.failed.iter().take(PRINTED as usize) {
            println!("FAILED: vector, {line}");
        }
        run.passed += outcome.passed.iter().sum::<u64>();
        run.failed += outcome.failed.len() as u64;
    }
}

const HELP: &str = "compare [--seed N] [--blocks N]

Compares the library with the stored vectors and with the reference on random cases, edge cases first. N blocks, a million unless given,
by the seed N, by the clock unless given. Prints the first failing cases in full, and how often each fault, refusal, mode, footprint and
setting occurred; a difference, or a sort of case that never occurred, makes it fail. The last line is 'N passed, M failed'.";

/// The seed and the count of blocks, where given.
fn arguments() -> [Option<u64>; 2] {
    let mut given = [None; 2];
    let mut arguments = std::env::args().skip(1);
    while let Some(name) = arguments.next() {
        let at = match name.as_str() {
            "--seed" => 0,
            "--blocks" => 1,
            "--help" | "-h" => {
                println!("{HELP}");
                std::process::exit(0)
            }
            _ => {
                eprintln!("compare: what is {name}?\n\n{HELP}");
                std::process::exit(2)
            }
        };
        given[at] = Some(arguments.next().and_then(|v| v.parse().ok()).unwrap_or_else(|| {
            eprintln!("compare: {name} takes a number");
            std::process::exit(2)
        }));
    }
    given
}

fn main() {
    let now = SystemTime::now().duration_since(UNIX_EPOCH).map_or(1, |d| d.as_nanos() as u64 % 1_000_000_000_000);
    let [seed, blocks] = arguments();
    let (seed, blocks) = (seed.unwrap_or(now), blocks.unwrap_or(1_000_000));
    println!("seed {seed}, {blocks} blocks");
    let mut r = Random(seed);
    let mut run = Run { seen: Seen::new(), passed: 0, failed: 0, printed: 0, blocks: 0 };
    vectors(&mut run);
    for case in make::every_mode(&mut r).into_iter().chain(make::hdr_edges(&mut r)) {
        run.block(case);
    }
    for case in make::spare_bits(&mut r) {
        run.block(case);
    }
    for case in make::hdr_marks(&mut r).into_iter().chain(make::volume_limits(&mut r)) {
        run.symbolic(case);
    }
    for case in make::edges(&mut r) {
        faults::picture(&mut run, &case);
        run.image(case);
    }
    run.image(make::panorama(&mut r));
    for case in make::above_255(&mut r) {
        run.symbolic(case);
    }
    while run.blocks < blocks {
        for _ in 0..100 {
            run.block(make::block(&mut r));
        }
        for _ in 0..25 {
            run.symbolic(make::symbolic(&mut r));
        }
        for _ in 0..2 {
            run.block(make::refused_block(&mut r));
            run.image(make::refused_image(&mut r));
            run.symbolic(make::refused_lists(&mut r));
        }
        run.image(make::image(&mut r));
    }
    volume::run(&mut run, &mut r, blocks / 100);
    pvrtc::run(&mut run, &mut r);
    caption::run(&mut run, &mut r);
    clip::cases(&mut run, &mut r, blocks / 50);
    file::cases(&mut run, &mut r, blocks / 200);
    view::run(&mut run, &mut r, blocks / 200);
    faults::run(&mut run, &mut r, blocks / 100);
    strict::run(&mut run, &mut r, blocks / 20);
    let never = run.seen.report();
    for line in &never {
        println!("{line}");
    }
    println!("seed {seed}, {} blocks", run.blocks);
    let bc7 = bc7::run(seed, blocks / 4);
    let failed = run.failed + never.len() as u64 + bc7.failed;
    println!("{} passed, {failed} failed", run.passed + bc7.passed);
    std::process::exit((failed != 0) as i32);
}

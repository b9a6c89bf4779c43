//! Makes the input of the program pvrtc_runs and the output it must have: pvrtc_runs DIR
//!
//! Texels are Godot's where all its channels count (sort 1), else the reference's.
use std::fmt::Write;
use std::fs::write as store;
use std::path::Path;

use reference::pvrtc::{decode_image, refusal};
use vectors::pvrtc::{STORED, pictures};

const WORDS: usize = 128;

struct Runs {
    input: Vec<u8>,
    output: String,
}

impl Runs {
    /// A record, and its line; `texels` where they are known from outside.
    fn put(&mut self, width: u16, height: u16, given: u16, places: u16, words: &[u8], texels: Option<&[u8]>) {
        for n in [width, height, given, places] {
            self.input.extend(n.to_le_bytes());
        }
        self.input.extend(words);
        self.input.extend(vec![0; WORDS - words.len()]);
        let refused = refusal(width as u32, height as u32, given as usize, places as usize);
        if refused != 0 {
            writeln!(self.output, "refused {refused} kept").expect("text");
            return;
        }
        let mut out = vec![0; places as usize];
        decode_image(width as usize, height as usize, words, &mut out);
        self.output += "texels";
        for n in texels.unwrap_or(&out) {
            write!(self.output, " {n}").expect("text");
        }
        self.output += "\n";
    }
}

fn main() {
    let dir = std::env::args().nth(1).expect("a directory");
    let zeros = " 0 0 0 0";
    let output = format!("place 54\nanswer 0{zeros}\nanswer 0{zeros}\nanswer 61 7 7 7 7\nanswer 61 7 7 7 7\n");
    let mut runs = Runs { input: Vec::new(), output };
    for p in pictures(STORED) {
        let (width, height) = (p.width, p.height);
        if p.words.len() <= WORDS {
            let outside = (p.sort == 1).then_some(p.shown);
            runs.put(width, height, p.words.len() as u16, p.shown.len() as u16, p.words, outside);
        }
    }
    // 61 before 4 before 5, sides at the limits and beside powers of two
    for side in [0, 1, 2, 3, 5, 6, 7, 9, 12, 24, 4095, 4097, 8192, 65535] {
        runs.put(side, 4, 7, 63, &[], None);
        runs.put(4, side, 7, 63, &[], None);
    }
    for (given, places) in [(7, 64), (9, 64), (0, 64), (7, 63), (8, 63), (8, 65), (8, 0), (16, 64)] {
        runs.put(4, 4, given, places, &[255; 16], None);
    }
    runs.put(4096, 4096, 128, 1024, &[], None);
    store(Path::new(&dir).join("stdin"), runs.input).expect("stdin");
    store(Path::new(&dir).join("stdout"), runs.output).expect("stdout");
}

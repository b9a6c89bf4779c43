//! Makes the input and output of the program `bc7_runs`: bc7_runs DIRECTORY

use std::fmt::Write;

use reference::bc7::{Sheet, fault, read, write};

fn list(out: &mut String, what: &str, number: u8, numbers: &[u8]) {
    write!(out, "{what} {number}").unwrap();
    for n in numbers {
        write!(out, " {n}").unwrap();
    }
    out.push('\n');
}

fn written(out: &mut String, sheet: &Sheet) {
    match write(sheet) {
        Ok(block) => list(out, "written", 0, &block),
        Err(refusal) => list(out, "written", refusal, &[0; 16]),
    }
}

fn main() {
    let directory = std::env::args().nth(1).expect("bc7_runs DIRECTORY");
    let mut input = Vec::new();
    let mut out = String::new();
    let mut shown = Vec::new();
    let mut left = [3; 9];
    left[8] = 1;
    for (block, texels) in vectors::bc7::stored() {
        let mode = block[0].trailing_zeros() as usize;
        if left[mode] == 0 {
            continue;
        }
        left[mode] -= 1;
        input.extend(block);
        let texels = if mode == 8 { &[0; 64] } else { texels };
        shown.push(texels);
        list(&mut out, "shown", fault(block), texels);
        let sheet = read(block).unwrap_or(Sheet::ZERO);
        list(&mut out, "read", fault(block), &sheet.to_numbers());
        written(&mut out, &sheet);
    }
    // the last six blocks as a picture of 10 by 7 texels, three across, the last one reserved
    let shown: Vec<Vec<u8>> = shown[19..].iter().map(|t| t.to_vec()).collect();
    let byte = |n: usize| {
        let (x, y) = (n / 4 % 10, n / 4 / 10);
        shown[y / 4 * 3 + x / 4][4 * (y % 4 * 4 + x % 4) + n % 4]
    };
    let texels: Vec<u8> = (0..280).map(byte).collect();
    list(&mut out, "faulty 1 first 5 fault", 71, &texels);
    for refusal in [3, 4, 5] {
        list(&mut out, "refused", refusal, &[7; 280]);
    }
    list(&mut out, "shown", 4, &[7; 64]);
    list(&mut out, "read", 4, &[0; 60]);
    written(&mut out, &Sheet::ZERO);
    let single = [
        (0, 8),
        (0, 255),
        (1, 16),
        (1, 15),
        (2, 1),
        (3, 1),
        (4, 16),
        (21, 15),
        (27, 2),
        (28, 4),
        (28, 3),
        (31, 4),
        (32, 7),
        (43, 8),
        (44, 1),
        (59, 1),
    ];
    for (at, n) in single {
        let mut numbers = [0; 60];
        numbers[at] = n;
        written(&mut out, &Sheet::from_numbers(&numbers));
    }
    std::fs::write(format!("{directory}/stdin"), input).unwrap();
    std::fs::write(format!("{directory}/stdout"), out).unwrap();
}

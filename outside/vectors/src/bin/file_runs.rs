//! Makes the input and output of the program `file_runs`: file_runs DIRECTORY
//!
//! Files of 3 by 2 texels of every footprint as astcenc wrote them, with the colours and half floats that it shows; then damaged ones, with the refusals of the
//! second reader.

use std::fmt::Write;

use reference::{file_header, read_file};

fn list<T: std::fmt::Display>(out: &mut String, what: &str, numbers: &[T]) {
    out.push_str(what);
    for n in numbers {
        write!(out, " {n}").unwrap();
    }
    out.push('\n');
}

/// A record of the input, and what the program writes; `colours` and `halves` are those of a file that is shown.
fn record(input: &mut Vec<u8>, out: &mut String, file: &[u8], colours: &[u8], halves: &[u16]) {
    input.push(file.len() as u8);
    input.extend(file);
    input.resize(input.len().next_multiple_of(40), 0);
    let (refusal, h) = read_file(file).map_or_else(|e| (e, Default::default()), |(h, _)| (0, h));
    writeln!(out, "header {refusal} {} {} {}", h.footprint, h.width, h.height).unwrap();
    match file_header(h.footprint, h.width, h.height) {
        Ok(header) => list(out, "written 0", &header),
        Err(refusal) => list(out, &format!("written {refusal}"), &[0u8; 16]),
    }
    let number = if refusal == 0 && (h.width, h.height) != (3, 2) { 5 } else { refusal };
    let told = if number == 0 { "faulty 0 first 0 fault 0".into() } else { format!("refused {number}") };
    writeln!(out, "{told}").unwrap();
    list(out, &told, if number == 0 { colours } else { &[7; 18] });
    list(out, &told, if number == 0 { halves } else { &[7; 24] });
}

fn main() {
    let directory = std::env::args().nth(1).expect("file_runs DIRECTORY");
    let (mut input, mut out) = (Vec::new(), String::new());
    let stored = vectors::file::stored();
    for file in stored.iter().filter(|f| (f.width, f.height) == (3, 2)) {
        record(&mut input, &mut out, file.bytes, &file.colours(), &file.half_floats());
    }
    let whole = stored[0].bytes;
    let file = stored.iter().find(|f| (f.width, f.height) == (3, 2)).unwrap().bytes;
    let changed = |at: usize, to: u8| {
        let mut bytes = file.to_vec();
        bytes[at] = to;
        bytes
    };
    let damaged = [
        file[..15].to_vec(),
        changed(3, 0x5D),
        changed(4, 7),
        changed(5, 5),
        changed(6, 0),
        changed(6, 2),
        changed(13, 0),
        changed(14, 1),
        changed(15, 1),
        changed(7, 0),
        changed(9, 1),
        changed(11, 0x41),
        changed(7, 5),
        changed(7, 4),
        [file, &[0]].concat(),
        whole[..16].to_vec(),
    ];
    for bytes in &damaged {
        record(&mut input, &mut out, bytes, &[], &[]);
    }
    assert_eq!(input.len(), 40 * 30);
    std::fs::write(format!("{directory}/stdin"), input).unwrap();
    std::fs::write(format!("{directory}/stdout"), out).unwrap();
}

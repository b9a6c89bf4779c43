//! Makes the input of the program clip_runs and the output it must have: clip_runs DIR
use std::fmt::Write;
use std::fs::write as store;
use std::path::Path;

use reference::random::Random;
use reference::{ClipFrame, FOOTPRINTS, clip_frame, parse_clip};

/// Sizes of the pieces that the program feeds.
const CUTS: [usize; 4] = [1, 7, 16, 400];

/// Bytes of a record.
const RECORD: usize = 409;

fn main() {
    let dir = std::env::args().nth(1).expect("a directory");
    let dir = Path::new(&dir);
    let mut r = Random(2026);
    let (mut input, mut output) = (Vec::new(), String::new());
    for clip in clips(&mut r) {
        input.extend(record(0, &ClipFrame::default(), &clip));
        for cut in CUTS {
            read(&clip, cut, &mut output);
        }
    }
    for (frame, blocks, more) in frames(&mut r) {
        input.extend(record(more, &frame, &blocks));
        output += &match clip_frame(&frame, &blocks, blocks.len() + 9 + more as usize) {
            Ok(bytes) => format!("frame{}\n", spaced(&bytes)),
            Err(number) => format!("refused {number}\n"),
        };
    }
    store(dir.join("stdin"), input).unwrap();
    store(dir.join("stdout"), output).unwrap();
}

fn spaced(bytes: &[u8]) -> String {
    bytes.iter().map(|b| format!(" {b}")).collect()
}

fn record(sort: u8, f: &ClipFrame, bytes: &[u8]) -> Vec<u8> {
    let mut record = vec![sort, f.footprint, f.kind];
    for n in [f.width as u16, f.height as u16, bytes.len() as u16] {
        record.extend(n.to_be_bytes());
    }
    record.extend(bytes);
    assert!(record.len() <= RECORD);
    record.resize(RECORD, 0);
    record
}

fn read(clip: &[u8], cut: usize, output: &mut String) {
    writeln!(output, "cut {cut}").unwrap();
    let parsed = parse_clip(clip);
    for b in &parsed.blocks {
        let f = b.frame;
        let of = format!("{} {} {} {}", f.footprint, f.kind, f.width, f.height);
        let bytes = spaced(&b.bytes);
        writeln!(output, "block {} {} at {} of {of}{bytes}", b.frame_index, b.index, b.came).unwrap();
    }
    if let Some((number, came)) = parsed.refusal {
        writeln!(output, "told {number} at {came}").unwrap();
    }
    writeln!(output, "end {} told {} at 0", parsed.end, parsed.end).unwrap();
}

fn blocks(r: &mut Random, f: &ClipFrame) -> Vec<u8> {
    let (w, h) = FOOTPRINTS[f.footprint as usize];
    let n = (f.width as usize).div_ceil(w) * (f.height as usize).div_ceil(h);
    (0..n).flat_map(|_| r.bytes()).collect()
}

fn frame(r: &mut Random, f: ClipFrame) -> Vec<u8> {
    let blocks = blocks(r, &f);
    clip_frame(&f, &blocks, 10 + blocks.len()).unwrap()
}

/// Sound clips of no frame to three, each ended at some places, with each header byte of the second frame damaged, and sides at and past
/// their limits.
fn clips(r: &mut Random) -> Vec<Vec<u8>> {
    let first = ClipFrame { footprint: 0, kind: 1, width: 5, height: 4 };
    let second = ClipFrame { footprint: 13, kind: 0, width: 12, height: 13 };
    let third = ClipFrame { footprint: 4, kind: 2, width: 1, height: 1 };
    let sound = [vec![1], frame(r, first), frame(r, second), frame(r, third)].concat();
    let mut clips = vec![Vec::new(), vec![0], vec![2, 1, 1], sound.clone()];
    for end in [1, 2, 10, 11, 26, 27, 42, 43, 44, 53, 84, 85, 95, sound.len() - 1] {
        clips.push(sound[..end].to_vec());
    }
    for place in 43..53 {
        for flip in [1, 0x80] {
            let mut clip = sound.clone();
            clip[place] ^= flip;
            clips.push(clip);
        }
    }
    for (footprint, kind, width, height, length) in [
        (13, 0, 16384, 0, 6),
        (13, 1, 0, 1, 22),
        (13, 1, 16385, 1, 6 + 16 * 1366),
        (13, 1, 1, 16385, 6 + 16 * 1366),
        (13, 1, 16384, 1, 6 + 16 * 1366),
        (13, 1, 1, 16384, 6 + 16 * 1366),
        (13, 1, 16384, 1, 10 + 16 * 1366),
        (14, 3, 0, 0, 0),
        (13, 3, 0, 0, 0),
        (13, 2, 0, 0, 0),
        (13, 1, 0, 0, 0),
        (0, 0, 1, 1, 0),
        (0, 0, 1, 1, 16),
        (0, 0, 1, 1, 0x0100_0016),
    ] {
        let mut clip = vec![1];
        clip.extend(u32::to_be_bytes(length));
        clip.extend([footprint, kind]);
        clip.extend(u16::to_be_bytes(width));
        clip.extend(u16::to_be_bytes(height));
        clip.extend([9; 40]);
        clips.push(clip);
    }
    clips
}

/// Frames for the writer, the bytes of their blocks, and by how much more than nine bytes the buffer is longer than these.
fn frames(r: &mut Random) -> Vec<(ClipFrame, Vec<u8>, u8)> {
    let good = ClipFrame { footprint: 6, kind: 1, width: 300, height: 5 };
    let mut frames = Vec::new();
    for footprint in 0..14 {
        let f = ClipFrame { footprint, kind: footprint % 3, width: 13, height: 7 };
        frames.push((f, blocks(r, &f), 1));
    }
    for f in [
        ClipFrame { footprint: 14, kind: 3, width: 0, height: 0 },
        ClipFrame { kind: 3, width: 0, ..good },
        ClipFrame { kind: 2, width: 0, ..good },
        ClipFrame { width: 0, ..good },
        ClipFrame { height: 0, ..good },
        ClipFrame { width: 16385, ..good },
        ClipFrame { height: 16385, ..good },
        good,
    ] {
        frames.push((f, vec![1; 17], 3));
    }
    for more in [1, 2, 7] {
        let f = ClipFrame { width: 136, height: 2, ..good };
        frames.push((f, blocks(r, &f), more));
    }
    frames
}

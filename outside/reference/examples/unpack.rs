//! 01's program by the second decoder. The stored outputs in tests/unpack are its.
//!
//! - `unpack` reads standard input and writes the program's output.
//! - `unpack DIR` makes inputs and outputs there: for each footprint and kinds 0 and 1 a block of random settings, `coded_WxH_kind_K`, and for
//!   each fault from 14 on a block that has it, `coded_fault_N`; in kind 2 for each footprint an HDR block, `coded_WxH_kind_2`, for some faults
//!   the same blocks, `coded_fault_N_kind_2`, an LDR block, `ldr_kind_2`, and solid blocks, `void_extent_S_kind_2`. The other inputs in
//!   tests/unpack were made by hand.
use std::fmt::Write;
use std::fs::write as store;
use std::io::Read;
use std::path::Path;

use reference::random::{
    Random, all_ones, block_of_any_mode, fault20_block, flat_footprint, hdr_mode_block, mode_block,
};
use reference::{FOOTPRINTS, Kind, SymbolicBlock, decode, fault, write};

fn main() {
    if let Some(dir) = std::env::args().nth(1) {
        return make(Path::new(&dir));
    }
    let mut input = Vec::new();
    std::io::stdin().read_to_end(&mut input).expect("standard input");
    print!("{}", unpacked(&input));
}

fn unpacked(input: &[u8]) -> String {
    if input.len() != 18 {
        return "refused 4\n".into();
    }
    let (fp, kind) = (input[0] as usize, input[1]);
    if fp > 13 {
        return "refused 1\n".into();
    }
    let Some(kind) = Kind::of(kind) else { return "refused 2\n".into() };
    let block: [u8; 16] = input[2..].try_into().expect("sixteen bytes");
    let (width, height) = FOOTPRINTS[fp];
    let mut numbers = vec![0u16; 4 * width * height];
    let mut text = format!("fault {}\n", decode(fp, kind, &block, &mut numbers));
    for (k, t) in numbers.chunks(4).enumerate() {
        writeln!(text, "{} {} {} {} {} {}", k % width, k / width, t[0], t[1], t[2], t[3]).expect("text");
    }
    text
}

fn make(dir: &Path) {
    let mut r = Random(2026);
    for (f, (w, h)) in FOOTPRINTS.iter().enumerate() {
        for kind in 0..2 {
            let block = write(f, &mode_block(&mut r, f)).expect("an acceptable symbolic block");
            put(dir, &format!("coded_{w}x{h}_kind_{kind}"), f, kind, &block);
        }
    }
    for wanted in 14..=20 {
        let (f, block) = faulty(&mut r, wanted);
        put(dir, &format!("coded_fault_{wanted}"), f, r.below(2) as u8, &block);
        if [14, 19, 20].contains(&wanted) {
            put(dir, &format!("coded_fault_{wanted}_kind_2"), f, 2, &block);
        }
    }
    for (f, (w, h)) in FOOTPRINTS.iter().enumerate() {
        let block = write(f, &hdr_mode_block(&mut r, f)).expect("an acceptable symbolic block");
        put(dir, &format!("coded_{w}x{h}_kind_2"), f, 2, &block);
    }
    put(dir, "ldr_kind_2", 4, 2, &write(4, &mode_block(&mut r, 4)).expect("an acceptable symbolic block"));
    let solid = SymbolicBlock { mark: 1, extents: all_ones(0), ..SymbolicBlock::ZERO };
    // infinity, a signalling NaN, a negative number, 65535
    for (name, hdr, colours) in [("ldr", 0, [3, 0x5400, 0xFFFE, 0xFFFF]), ("hdr", 1, [0x7C00, 0xFD01, 0x9234, 0xFFFF])]
    {
        let block = write(0, &SymbolicBlock { hdr, colours, ..solid }).expect("an acceptable symbolic block");
        put(dir, &format!("void_extent_{name}_kind_2"), 0, 2, &block);
    }
}

/// A block that has the fault, at a random footprint.
fn faulty(r: &mut Random, wanted: u8) -> (usize, [u8; 16]) {
    loop {
        let f = flat_footprint(r);
        let block = if wanted == 20 { fault20_block(r, f).0 } else { block_of_any_mode(r) };
        if fault(f, Kind::Unorm16, &block) == wanted {
            return (f, block);
        }
    }
}

fn put(dir: &Path, name: &str, footprint: usize, kind: u8, block: &[u8; 16]) {
    let input = [&[footprint as u8, kind], &block[..]].concat();
    store(dir.join(format!("{name}.out")), unpacked(&input)).expect("the output");
    store(dir.join(format!("{name}.in")), input).expect("the input");
}

//! .astc files: every byte of a header set to every value, cut and longer files, each refusal before the next; headers for the writer.

use std::fmt;

use reference::random::Random;
use reference::{
    FOOTPRINTS, FileHeader, Kind, Tally, VOLUMES, decode_image_f16, decode_image_u8, decode_image_u16, file_header,
    read_file,
};

use crate::Run;
use crate::cases::{Case, lend};

/// What must occur.
pub const SORTS: &[(&str, &[u32])] = &[
    ("file, refusal", &[0, 3, 4, 41, 42, 43]),
    ("file of a volume", &[43]),
    ("file, footprint", &[0, 1, 2, 3, 4, 5, 6, 7, 8, 9, 10, 11, 12, 13]),
    ("file, header byte changed", &[0, 1, 2, 3, 4, 5, 6, 7, 8, 9, 10, 11, 12, 13, 14, 15]),
    ("file, header byte changed, taken", &[4, 5, 7, 10]),
    ("file, depth", &[0, 1, 2]),
    ("file, third size", &[0, 1, 2, 257, 65536]),
    ("file, width of three bytes", &[0, 3]),
    ("file, longer", &[4]),
    ("file, shorter", &[4, 41]),
    ("file, decoding call, refusal", &[0, 3, 4, 5, 41, 42, 43]),
    ("file, tally not of 3 numbers, refusal", &[3, 4, 5, 41, 42, 43]),
    ("file, blocks with a fault", &[0, 1]),
    ("file, HDR blocks", &[0, 1]),
    ("file, both wrong", &[41, 42, 43, 3, 4]),
    ("file, list not of 3 numbers", &[3, 4, 5, 41, 42, 43]),
    ("header call, refusal", &[0, 1, 3, 5]),
    ("header call, side of 16384", &[0]),
    ("header call, side of 16385", &[3]),
];

/// A file of any bytes, with buffers of any length.
#[derive(Clone)]
struct FileCase {
    bytes: Vec<u8>,
    out_len: usize,
    tally_len: usize,
    header_len: usize,
}

impl FileCase {
    /// A call with the lengths that an accepted file asks for.
    fn new(bytes: Vec<u8>) -> FileCase {
        let out_len = read_file(&bytes).map_or(16, |(h, _)| 4 * h.width as usize * h.height as usize);
        FileCase { bytes, out_len, tally_len: 3, header_len: 3 }
    }

    fn refusal(&self) -> u8 {
        read_file(&self.bytes).err().unwrap_or(0)
    }

    /// The number of a decoding call.
    fn number(&self) -> u8 {
        match read_file(&self.bytes) {
            Err(refusal) => refusal,
            Ok((h, _)) if self.out_len != 4 * h.width as usize * h.height as usize => 5,
            Ok(_) if self.tally_len != 3 => 5,
            Ok(_) => 0,
        }
    }
}

impl Case for FileCase {
    fn difference(&self) -> Option<String> {
        let refusal = self.refusal();
        let header = read_file(&self.bytes).map_or(FileHeader::default(), |(h, _)| h);
        let told = [header.footprint as u32, header.width, header.height];
        let mut list = vec![0xA75C_00A7; self.header_len];
        let number = library::file::raw::read_header(&self.bytes, &mut list);
        let expected = if refusal == 0 && self.header_len != 3 { 5 } else { refusal };
        let after = if self.header_len == 3 { told.to_vec() } else { vec![0xA75C_00A7; self.header_len] };
        if (number, &list) != (expected, &after) {
            return Some(format!("read_header: {number}, {list:?}, expected {expected}, {after:?}"));
        }
        let opened = library::file::AstcFile::read(&self.bytes);
        let parts =
            opened.map(|f| ([f.footprint.number() as u32, f.width, f.height], f.blocks)).map_err(|e| e.number());
        if parts != read_file(&self.bytes).map(|(_, blocks)| (told, blocks)) {
            return Some(format!("AstcFile::read: {parts:?}"));
        }

        let number = self.number();
        let (f, w, h) = (header.footprint as usize, header.width as usize, header.height as usize);
        let (mut numbers, mut bytes, mut halves) =
            (vec![0; self.out_len], vec![0; self.out_len], vec![0; self.out_len]);
        let (mut faults, mut half_faults) = ([0; 3], [0; 3]);
        if number == 0 {
            let told = |tally: Tally| [tally.faulty, tally.first_index, tally.first_fault as u64];
            faults = told(decode_image_u16(f, w, h, &self.bytes[16..], &mut numbers));
            decode_image_u8(f, w, h, &self.bytes[16..], &mut bytes);
            half_faults = told(decode_image_f16(f, w, h, &self.bytes[16..], &mut halves));
        }
        let lent = |faults: [u64; 3]| if self.tally_len == 3 { faults.to_vec() } else { vec![0xA75C; self.tally_len] };
        let tally = lent(faults);
        let mut given = vec![0xA75C; self.tally_len];
        let row = Some(w.max(1));
        let wide =
            lend(self.out_len, (number == 0).then_some(&numbers[..]), row, "decode_file_unorm16", number, |out| {
                library::file::raw::decode_file_unorm16(&self.bytes, out, &mut given)
            });
        if wide.is_some() || given != tally {
            return wide.or(Some(format!("decode_file_unorm16, tally {given:?}, expected {tally:?}")));
        }
        let mut given = vec![0xA75C; self.tally_len];
        let small = lend(self.out_len, (number == 0).then_some(&bytes[..]), row, "decode_file_srgb8", number, |out| {
            library::file::raw::decode_file_srgb8(&self.bytes, out, &mut given)
        });
        if small.is_some() || given != tally {
            return small.or(Some(format!("decode_file_srgb8, tally {given:?}, expected {tally:?}")));
        }
        let tally = lent(half_faults);
        let mut given = vec![0xA75C; self.tally_len];
        let half =
            lend(self.out_len, (number == 0).then_some(&halves[..]), row, "decode_file_float16", number, |out| {
                library::file::raw::decode_file_float16(&self.bytes, out, &mut given)
            });
        half.or((given != tally).then(|| format!("decode_file_float16, tally {given:?}, expected {tally:?}")))
    }

    fn smaller(&self) -> Vec<FileCase> {
        let changed = (16..self.bytes.len()).filter(|&at| self.bytes[at] != 0).map(|at| {
            let mut case = self.clone();
            case.bytes[at] = 0;
            case
        });
        changed.take(64).collect()
    }
}

impl fmt::Display for FileCase {
    fn fmt(&self, f: &mut fmt::Formatter) -> fmt::Result {
        let FileCase { bytes, out_len, tally_len, header_len } = self;
        write!(
            f,
            "file of {} bytes, {out_len} numbers, tally {tally_len}, header {header_len}: {bytes:02X?}",
            bytes.len()
        )
    }
}

/// A header for the writer, and a list of any length for it.
#[derive(Clone)]
struct HeaderCase {
    footprint: u8,
    width: u32,
    height: u32,
    len: usize,
}

impl HeaderCase {
    fn number(&self) -> u8 {
        match file_header(self.footprint, self.width, self.height) {
            Err(refusal) => refusal,
            Ok(_) if self.len != 16 => 5,
            Ok(_) => 0,
        }
    }
}

impl Case for HeaderCase {
    fn difference(&self) -> Option<String> {
        let header = file_header(self.footprint, self.width, self.height).unwrap_or([0; 16]);
        let expected = (self.len == 16).then_some(&header[..]);
        lend(self.len, expected, None, "write_header", self.number(), |out| {
            library::file::raw::write_header(self.footprint, self.width, self.height, out)
        })
    }

    fn smaller(&self) -> Vec<HeaderCase> {
        Vec::new()
    }
}

impl fmt::Display for HeaderCase {
    fn fmt(&self, f: &mut fmt::Formatter) -> fmt::Result {
        write!(f, "header of footprint {}, {} x {}, for {} bytes", self.footprint, self.width, self.height, self.len)
    }
}

impl Run {
    fn file(&mut self, case: FileCase) {
        let (refusal, number) = (case.refusal(), case.number());
        self.seen.count("file, refusal", refusal as u32);
        self.seen.count("file, decoding call, refusal", number as u32);
        if case.tally_len != 3 {
            self.seen.count("file, tally not of 3 numbers, refusal", number as u32);
        }
        if case.header_len != 3 {
            self.seen.count("file, list not of 3 numbers", if refusal == 0 { 5 } else { refusal } as u32);
        }
        if let Ok((h, blocks)) = read_file(&case.bytes) {
            self.seen.count("file, footprint", h.footprint as u32);
            let fault = |kind: Kind, b| reference::fault(h.footprint as usize, kind, b);
            let blocks = blocks.as_chunks::<16>().0;
            let faulty = blocks.iter().any(|b| fault(Kind::Float16, b) != 0);
            self.seen.count("file, blocks with a fault", faulty as u32);
            let hdr = blocks.iter().any(|b| fault(Kind::Float16, b) == 0 && fault(Kind::Unorm16, b) != 0);
            self.seen.count("file, HDR blocks", hdr as u32);
        }
        self.case(case);
    }

    fn header(&mut self, case: HeaderCase) {
        let number = case.number();
        self.seen.count("header call, refusal", number as u32);
        for (side, sort) in [(16384, "header call, side of 16384"), (16385, "header call, side of 16385")] {
            if case.width == side || case.height == side {
                self.seen.count(sort, number as u32);
            }
        }
        self.case(case);
    }
}

/// A file of an image, its blocks at random; some are without fault.
fn file(r: &mut Random, footprint: u8, width: u32, height: u32) -> Vec<u8> {
    let f = footprint as usize;
    let count = (width as usize).div_ceil(FOOTPRINTS[f].0) * (height as usize).div_ceil(FOOTPRINTS[f].1);
    let mut bytes = file_header(footprint, width, height).unwrap().to_vec();
    let sound = r.once_in(2);
    for _ in 0..count {
        let block = reference::write(f, &reference::random::any_symbolic_block(r, f)).unwrap();
        bytes.extend(if sound || r.once_in(2) { block } else { r.bytes() });
    }
    bytes
}

/// The files that astcenc wrote.
fn vectors(run: &mut Run) {
    let mut agree = 0;
    for stored in vectors::file::stored() {
        let file = library::file::AstcFile::read(stored.bytes);
        let footprint = library::Footprint::try_from(stored.footprint).unwrap();
        let said = file.map(|f| (f.footprint, f.width, f.height));
        let (mut numbers, mut bytes) = (vec![0; stored.numbers()], vec![0; stored.numbers()]);
        let mut halves = vec![0; stored.numbers()];
        let wide = library::file::decode_unorm16(stored.bytes, &mut numbers);
        let small = library::file::decode_srgb8(stored.bytes, &mut bytes);
        let half = library::file::decode_float16(stored.bytes, &mut halves);
        let sound = Ok(library::Tally::default());
        let agrees = said == Ok((footprint, stored.width, stored.height))
            && [wide, small, half] == [sound; 3]
            && stored.shows(&numbers, &bytes, &halves)
            && library::file::write_header(footprint, stored.width, stored.height).unwrap() == stored.bytes[..16];
        if agrees {
            agree += 1;
        } else {
            run.failed += 1;
            println!("FAILED: file of astcenc, footprint {}, {} x {}", stored.footprint, stored.width, stored.height);
        }
        run.file(FileCase::new(stored.bytes.to_vec()));
    }
    run.passed += agree;
    println!("files of astcenc agree: {agree}");
}

/// Every byte of a header set to every value; every cut; longer files.
fn every_byte(run: &mut Run, base: &[u8]) {
    for at in 0..16 {
        for value in 0..=255u8 {
            let mut bytes = base.to_vec();
            bytes[at] = value;
            if value != base[at] {
                run.seen.count("file, header byte changed", at as u32);
                if read_file(&bytes).is_ok() {
                    run.seen.count("file, header byte changed, taken", at as u32);
                }
            }
            let case = FileCase::new(bytes);
            if at == 6 {
                run.seen.count("file, depth", value as u32);
            }
            if (13..16).contains(&at) {
                let size = u32::from_le_bytes([case.bytes[13], case.bytes[14], case.bytes[15], 0]);
                run.seen.count("file, third size", size.min(65536));
            }
            if at == 9 {
                run.seen.count("file, width of three bytes", case.refusal() as u32);
            }
            run.file(case);
        }
    }
    for len in 0..base.len() {
        let case = FileCase::new(base[..len].to_vec());
        run.seen.count("file, shorter", case.refusal() as u32);
        run.file(case);
    }
    for more in [1, 15, 16, 17, 32] {
        let case = FileCase::new([base, &vec![0; more]].concat());
        run.seen.count("file, longer", case.refusal() as u32);
        run.file(case);
    }
}

/// Two things wrong at once: the first in the order is told.
fn each_before_the_next(run: &mut Run, base: &[u8]) {
    let spoil = |bytes: &mut Vec<u8>, what: usize| match what {
        0 => bytes.truncate(15),
        1 => bytes[0] ^= 1,
        2 => bytes[6] = 2,
        3 => bytes[7..10].fill(0),
        _ => bytes.push(0),
    };
    for first in 0..5 {
        for second in first..5 {
            let mut bytes = base.to_vec();
            spoil(&mut bytes, second);
            spoil(&mut bytes, first);
            for (tally_len, header_len, more) in [(3, 3, 0), (2, 3, 0), (3, 4, 0), (0, 0, 1)] {
                let case = FileCase { tally_len, header_len, ..FileCase::new(bytes.clone()) };
                let case = FileCase { out_len: case.out_len + more, ..case };
                run.seen.count("file, both wrong", case.refusal() as u32);
                run.file(case);
            }
        }
    }
    for (tally_len, header_len, more) in [(3, 3, 1), (2, 3, 0), (4, 2, 0), (0, 0, 1), (3, 0, 0)] {
        let case = FileCase { tally_len, header_len, ..FileCase::new(base.to_vec()) };
        run.file(FileCase { out_len: case.out_len + more, ..case });
    }
}

pub fn cases(run: &mut Run, r: &mut Random, count: u64) {
    for (sort, numbers) in SORTS {
        run.seen.require(sort, numbers.iter().copied());
    }
    vectors(run);
    for (footprint, width, height) in [(0, 5, 4), (4, 7, 13), (13, 12, 12), (9, 1, 1)] {
        let base = file(r, footprint, width, height);
        every_byte(run, &base);
        each_before_the_next(run, &base);
    }
    // 65,536 is not 0, and 65,540 is not 4; nor is 16,384 out of bounds
    for width in [4, 16384, 16385, 65536, 65540, 0xFFFFFF] {
        let mut bytes = file(r, 0, 4, 1);
        bytes[7..10].copy_from_slice(&u32::to_le_bytes(width)[..3]);
        run.file(FileCase::new(bytes));
    }
    run.file(FileCase::new(file(r, 0, 16384, 1)));
    // the file of a volume of one block
    for sides in VOLUMES {
        let mut bytes = file(r, 0, 1, 1);
        for (axis, side) in sides.into_iter().enumerate() {
            (bytes[4 + axis], bytes[7 + 3 * axis]) = (side as u8, side as u8);
        }
        let case = FileCase::new(bytes);
        run.seen.count("file of a volume", case.refusal() as u32);
        run.file(case);
    }
    for footprint in 0..=255u8 {
        for (width, height) in [(1, 1), (16384, 1), (1, 16384), (16385, 1), (1, 16385), (0, 1), (1, 0), (65536, 4)] {
            run.header(HeaderCase { footprint, width, height, len: 16 });
        }
    }
    for len in [0, 1, 15, 17, 32] {
        for (footprint, width) in [(0, 1), (14, 0), (0, 0)] {
            run.header(HeaderCase { footprint, width, height: 1, len });
        }
    }
    for _ in 0..count {
        let footprint = r.below(14) as u8;
        let (width, height) = (1 + r.below(40) as u32, 1 + r.below(40) as u32);
        let mut bytes = file(r, footprint, width, height);
        if r.once_in(4) {
            let at = r.below(bytes.len().min(24));
            bytes[at] = r.word() as u8;
        }
        run.file(FileCase::new(bytes));
        let (width, height) = (r.word() as u32 >> r.below(32), r.word() as u32 >> r.below(32));
        run.header(HeaderCase { footprint: r.below(16) as u8, width, height, len: 16 });
    }
}

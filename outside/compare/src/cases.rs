//! One case of each sort: what the reference expects, what the library gives, smaller cases.

use std::fmt;

use reference::{
    ALL_FOOTPRINTS, FOOTPRINTS, Kind, NUMBERS, SymbolicBlock, Tally, block_refusal, decode_f16, decode_image_f16,
    decode_image_u8, decode_image_u16, decode_u8, decode_u16, image_refusal, is_volume, read, read_refusal, read_spare,
    sides, texels, write,
};

/// A case that can be run, printed and made smaller.
pub trait Case: fmt::Display + Sized {
    /// What differs between library and reference, if anything.
    fn difference(&self) -> Option<String>;
    /// Simpler cases to try.
    fn smaller(&self) -> Vec<Self>;
}

/// Greedy search for a smaller case that still differs.
pub fn shrink<C: Case>(mut case: C) -> C {
    let mut tries = 0;
    'search: loop {
        for smaller in case.smaller() {
            tries += 1;
            if tries > 20_000 {
                return case;
            }
            if smaller.difference().is_some() {
                case = smaller;
                continue 'search;
            }
        }
        return case;
    }
}

/// A number of a lent buffer.
pub trait Number: Copy + PartialEq + fmt::Debug {
    const MARK: Self;
    fn other(self) -> Self;
}

impl Number for u8 {
    const MARK: u8 = 0xA7;
    fn other(self) -> u8 {
        !self
    }
}

impl Number for u16 {
    const MARK: u16 = 0xA75C;
    fn other(self) -> u16 {
        !self
    }
}

impl Number for u64 {
    const MARK: u64 = 0xA75C_0000_0000_00A7;
    fn other(self) -> u64 {
        !self
    }
}

const GUARD: usize = 8;

/// Lends a buffer and tells where it differs from what is expected afterwards. Where something
/// is expected (`Some`) the buffer starts with other numbers everywhere, else it must stay as it was.
/// `row` is the texels in a row, where the buffer holds texels; y then counts the rows of all layers.
pub fn lend<T: Number>(
    len: usize, expected: Option<&[T]>, row: Option<usize>, what: &str, expected_answer: u8,
    call: impl FnOnce(&mut [T]) -> u8,
) -> Option<String> {
    let mut buffer = vec![T::MARK; len + 2 * GUARD];
    if let Some(expected) = expected {
        for (at, e) in buffer[GUARD..].iter_mut().zip(expected) {
            *at = e.other();
        }
    }
    let answer = call(&mut buffer[GUARD..GUARD + len]);
    if answer != expected_answer {
        return Some(format!("{what} answers {answer}, expected {expected_answer}"));
    }
    let inside = &buffer[GUARD..GUARD + len];
    for (i, &given) in inside.iter().enumerate() {
        let wanted = expected.map_or(T::MARK, |e| e[i]);
        if given == wanted {
            continue;
        }
        let Some(expected) = expected else {
            return Some(format!("{what} is refused by {answer} but writes number {i}"));
        };
        let Some(row) = row else {
            return Some(format!("{what}, number {i}: {given:?}, expected {wanted:?}"));
        };
        let texel = i / 4;
        return Some(format!(
            "{what}, texel x {} y {}: {:?}, expected {:?}",
            texel % row,
            texel / row,
            &inside[4 * texel..][..4],
            &expected[4 * texel..][..4],
        ));
    }
    let guards = buffer[..GUARD].iter().chain(&buffer[GUARD + len..]);
    guards.into_iter().any(|&g| g != T::MARK).then(|| format!("{what} writes outside the buffer"))
}

pub fn hex(bytes: &[u8]) -> String {
    bytes.iter().map(|b| format!("{b:02X}")).collect::<Vec<_>>().join(" ")
}

pub fn size_name(footprint: u8) -> String {
    let f = footprint as usize;
    if f >= ALL_FOOTPRINTS {
        return format!("footprint {footprint}");
    }
    let [w, h, d] = sides(f);
    if is_volume(f) {
        format!("footprint {footprint} ({w}x{h}x{d})")
    } else {
        format!("footprint {footprint} ({w}x{h})")
    }
}

/// The one-block calls, the reader of symbolic blocks, and the writer on what was read.
#[derive(Clone)]
pub struct BlockCase {
    pub footprint: u8,
    pub block: Vec<u8>,
    pub out_len: usize,
    /// Of the lists that the reader gets.
    pub numbers_len: usize,
    pub spare_len: usize,
}

impl BlockCase {
    pub fn new(footprint: usize, block: [u8; 16]) -> BlockCase {
        BlockCase {
            footprint: footprint as u8,
            block: block.to_vec(),
            out_len: 4 * texels(footprint),
            numbers_len: NUMBERS,
            spare_len: 2,
        }
    }

    /// The block, where the call isn't refused.
    pub fn whole(&self) -> Option<&[u8; 16]> {
        let refusal = block_refusal(self.footprint as usize, self.block.len(), self.out_len);
        (refusal == 0).then(|| self.block.as_slice().try_into().unwrap())
    }

    fn decode_difference(&self) -> Option<String> {
        let f = self.footprint as usize;
        let Some(block) = self.whole() else {
            let refusal = block_refusal(f, self.block.len(), self.out_len);
            return lend(self.out_len, None, None, "decode_block_unorm16", refusal, |out| {
                library::raw::decode_block_unorm16(self.footprint, &self.block, out)
            })
            .or_else(|| {
                lend(self.out_len, None, None, "decode_block_srgb8", refusal, |out| {
                    library::raw::decode_block_srgb8(self.footprint, &self.block, out)
                })
            })
            .or_else(|| {
                lend(self.out_len, None, None, "decode_block_float16", refusal, |out| {
                    library::raw::decode_block_float16(self.footprint, &self.block, out)
                })
            });
        };
        let row = Some(sides(f)[0]);
        let mut numbers = vec![0; self.out_len];
        let fault = decode_u16(f, block, &mut numbers);
        let mut bytes = vec![0; self.out_len];
        decode_u8(f, block, &mut bytes);
        let mut halves = vec![0; self.out_len];
        let half_fault = decode_f16(f, block, &mut halves);
        lend(self.out_len, Some(&numbers), row, "decode_block_unorm16", fault, |out| {
            library::raw::decode_block_unorm16(self.footprint, &self.block, out)
        })
        .or_else(|| {
            lend(self.out_len, Some(&bytes), row, "decode_block_srgb8", fault, |out| {
                library::raw::decode_block_srgb8(self.footprint, &self.block, out)
            })
        })
        .or_else(|| {
            lend(self.out_len, Some(&halves), row, "decode_block_float16", half_fault, |out| {
                library::raw::decode_block_float16(self.footprint, &self.block, out)
            })
        })
    }

    /// Both lists of the reader have their lengths.
    fn has_lists(&self) -> bool {
        self.numbers_len == NUMBERS && self.spare_len == 2
    }

    /// The reader's refusal: 1, 4, and 5 where its lists are not of 107 and of two numbers.
    pub fn read_refusal(&self) -> u8 {
        match read_refusal(self.footprint as usize, self.block.len()) {
            0 if !self.has_lists() => 5,
            refusal => refusal,
        }
    }

    fn read_difference(&self) -> Option<String> {
        let expected = match self.read_refusal() {
            0 => read_spare(self.footprint as usize, self.block.as_slice().try_into().unwrap()),
            refusal => Err(refusal),
        };
        let (answer, numbers, spare) = match expected {
            Ok((s, spare)) => (0, s.to_numbers(), spare.to_numbers()),
            Err(number) => (number, [0; NUMBERS], [0; 2]),
        };
        let wanted = self.has_lists().then_some(numbers.as_slice());
        let wanted_spare = self.has_lists().then_some(spare.as_slice());
        let mut inner = None;
        lend(self.numbers_len, wanted, None, "read_symbolic", answer, |given| {
            let mut told = 0;
            inner = lend(self.spare_len, wanted_spare, None, "read_symbolic, spare bits", answer, |spare| {
                told = library::raw::read_symbolic(self.footprint, &self.block, given, spare);
                told
            });
            told
        })
        .or(inner)
        .or_else(|| (answer == 0).then(|| SymbolicCase::new(self.footprint, &numbers).write_difference()).flatten())
    }
}

impl Case for BlockCase {
    fn difference(&self) -> Option<String> {
        self.decode_difference().or_else(|| self.read_difference())
    }

    fn smaller(&self) -> Vec<BlockCase> {
        let mut cases = Vec::new();
        let exact = self.whole().is_some();
        for footprint in 0..self.footprint.min(ALL_FOOTPRINTS as u8) {
            let mut case = BlockCase { footprint, ..self.clone() };
            if exact {
                case.out_len = 4 * texels(footprint as usize);
            }
            cases.push(case);
        }
        for bit in (0..8 * self.block.len()).rev() {
            if self.block[bit / 8] >> (bit % 8) & 1 == 1 {
                let mut case = self.clone();
                case.block[bit / 8] ^= 1 << (bit % 8);
                cases.push(case);
            }
        }
        if !exact {
            for len in [0, self.block.len() / 2, self.block.len().saturating_sub(1)] {
                if len < self.block.len() {
                    cases.push(BlockCase { block: self.block[..len].to_vec(), ..self.clone() });
                }
            }
            for out_len in [0, self.out_len / 2, self.out_len.saturating_sub(1)] {
                if out_len < self.out_len {
                    cases.push(BlockCase { out_len, ..self.clone() });
                }
            }
            for numbers_len in [0, self.numbers_len / 2, self.numbers_len.saturating_sub(1)] {
                if numbers_len < self.numbers_len {
                    cases.push(BlockCase { numbers_len, ..self.clone() });
                }
            }
            if self.spare_len > 0 {
                cases.push(BlockCase { spare_len: self.spare_len - 1, ..self.clone() });
            }
        }
        cases
    }
}

impl fmt::Display for BlockCase {
    fn fmt(&self, f: &mut fmt::Formatter) -> fmt::Result {
        let name = size_name(self.footprint);
        let (out, numbers, spare) = (self.out_len, self.numbers_len, self.spare_len);
        writeln!(f, "block call, {name}, out length {out}, lists of {numbers} and {spare} numbers")?;
        writeln!(f, "block {}", hex(&self.block))?;
        if let Some(block) = self.whole() {
            match read(self.footprint as usize, block) {
                Ok(s) => writeln!(f, "{s:?}")?,
                Err(fault) => writeln!(f, "fault {fault}")?,
            }
        }
        Ok(())
    }
}

/// The writer on any numbers; what it writes goes through the block calls.
#[derive(Clone)]
pub struct SymbolicCase {
    pub footprint: u8,
    pub numbers: Vec<u16>,
    pub block_len: usize,
}

impl SymbolicCase {
    pub fn new(footprint: u8, numbers: &[u16; NUMBERS]) -> SymbolicCase {
        SymbolicCase { footprint, numbers: numbers.to_vec(), block_len: 16 }
    }

    /// The symbolic block, where both lengths are right.
    pub fn whole(&self) -> Option<SymbolicBlock> {
        let numbers = self.numbers.as_slice().try_into().ok()?;
        (self.block_len == 16).then(|| SymbolicBlock::from_numbers(numbers))
    }

    /// The block written; or the refusal: of a length, which comes after 1, or of the symbolic block.
    pub fn written(&self) -> Result<[u8; 16], u8> {
        match self.whole() {
            Some(s) => write(self.footprint as usize, &s),
            None if self.footprint as usize >= ALL_FOOTPRINTS => Err(1),
            None if self.block_len != 16 => Err(4),
            None => Err(5),
        }
    }

    fn write_difference(&self) -> Option<String> {
        let written = self.written();
        let block = written.unwrap_or([0; 16]);
        // 01: "all 0 on a refusal", whatever is refused, where the block has its sixteen bytes.
        let wanted = (self.block_len == 16).then_some(block.as_slice());
        lend(self.block_len, wanted, None, "write_symbolic", written.err().unwrap_or(0), |given| {
            library::raw::write_symbolic(self.footprint, &self.numbers, given)
        })
    }
}

impl Case for SymbolicCase {
    fn difference(&self) -> Option<String> {
        self.write_difference().or_else(|| BlockCase::new(self.footprint as usize, self.written().ok()?).difference())
    }

    fn smaller(&self) -> Vec<SymbolicCase> {
        let mut cases = Vec::new();
        for footprint in 0..self.footprint.min(ALL_FOOTPRINTS as u8) {
            cases.push(SymbolicCase { footprint, ..self.clone() });
        }
        for (i, &n) in self.numbers.iter().enumerate().rev() {
            for less in [0, n / 2, n.saturating_sub(1)] {
                if less < n {
                    let mut case = self.clone();
                    case.numbers[i] = less;
                    cases.push(case);
                }
            }
        }
        cases
    }
}

impl fmt::Display for SymbolicCase {
    fn fmt(&self, f: &mut fmt::Formatter) -> fmt::Result {
        writeln!(f, "write call, {}, block length {}", size_name(self.footprint), self.block_len)?;
        match self.whole() {
            Some(s) => writeln!(f, "{s:?}"),
            None => writeln!(f, "{} numbers {:?}", self.numbers.len(), self.numbers),
        }
    }
}

/// The image calls.
#[derive(Clone)]
pub struct ImageCase {
    pub footprint: u8,
    pub width: u32,
    pub height: u32,
    pub blocks: Vec<u8>,
    pub out_len: usize,
    pub tally_len: usize,
}

/// A void extent, flat or of a volume, all channels 0.
pub const PLAIN: [u8; 16] = [0xFC, 0xFD, 0xFF, 0xFF, 0xFF, 0xFF, 0xFF, 0xFF, 0, 0, 0, 0, 0, 0, 0, 0];

impl ImageCase {
    /// 1, 3, 4, 5; 5 also where the tally is not of 3 numbers.
    pub fn refusal(&self) -> u8 {
        match image_refusal(self.footprint as usize, self.width, self.height, self.blocks.len(), self.out_len) {
            0 if self.tally_len != 3 => 5,
            refusal => refusal,
        }
    }

    pub fn tally(&self) -> Tally {
        let mut out = vec![0; self.out_len];
        let (f, w, h) = (self.footprint as usize, self.width as usize, self.height as usize);
        decode_image_u8(f, w, h, &self.blocks, &mut out)
    }

    pub fn float16_tally(&self) -> Tally {
        let mut out = vec![0; self.out_len];
        let (f, w, h) = (self.footprint as usize, self.width as usize, self.height as usize);
        decode_image_f16(f, w, h, &self.blocks, &mut out)
    }

    /// The part of an accepted image from block column and row `left`, `top` on, so many texels large.
    fn part(&self, left: usize, top: usize, width: u32, height: u32) -> ImageCase {
        let (w, h) = FOOTPRINTS[self.footprint as usize];
        let across = self.width.div_ceil(w as u32) as usize;
        let (new_across, new_down) = (width.div_ceil(w as u32) as usize, height.div_ceil(h as u32) as usize);
        let mut blocks = Vec::new();
        for row in top..top + new_down {
            blocks.extend_from_slice(&self.blocks[16 * (row * across + left)..][..16 * new_across]);
        }
        ImageCase { width, height, blocks, out_len: 4 * (width * height) as usize, ..*self }
    }
}

impl Case for ImageCase {
    fn difference(&self) -> Option<String> {
        let refusal = self.refusal();
        let (f, w, h) = (self.footprint as usize, self.width as usize, self.height as usize);
        let (mut numbers, mut bytes, mut halves) = (Vec::new(), Vec::new(), Vec::new());
        let (mut ldr, mut hdr) = ([0; 3], [0; 3]);
        if refusal == 0 {
            numbers.resize(self.out_len, 0);
            bytes.resize(self.out_len, 0);
            halves.resize(self.out_len, 0);
            let told = |tally: Tally| [tally.faulty, tally.first_index, tally.first_fault as u64];
            ldr = told(decode_image_u16(f, w, h, &self.blocks, &mut numbers));
            assert_eq!(ldr, told(decode_image_u8(f, w, h, &self.blocks, &mut bytes)));
            hdr = told(decode_image_f16(f, w, h, &self.blocks, &mut halves));
        }
        // Lends the tally to a call, which tells its own differences.
        let with_tally = |what: &str, expected: [u64; 3], call: &dyn Fn(&mut [u64]) -> Option<String>| {
            let mut found = None;
            let wanted = (self.tally_len == 3).then_some(expected.as_slice());
            let told = lend(self.tally_len, wanted, None, &format!("tally of {what}"), 0, |tally| {
                found = call(tally);
                0
            });
            found.or(told)
        };
        let row = Some(w.max(1));
        with_tally("decode_image_unorm16", ldr, &|tally| {
            let wanted = (refusal == 0).then_some(numbers.as_slice());
            lend(self.out_len, wanted, row, "decode_image_unorm16", refusal, |out| {
                library::raw::decode_image_unorm16(self.footprint, self.width, self.height, &self.blocks, out, tally)
            })
        })
        .or_else(|| {
            with_tally("decode_image_srgb8", ldr, &|tally| {
                let wanted = (refusal == 0).then_some(bytes.as_slice());
                lend(self.out_len, wanted, row, "decode_image_srgb8", refusal, |out| {
                    library::raw::decode_image_srgb8(self.footprint, self.width, self.height, &self.blocks, out, tally)
                })
            })
        })
        .or_else(|| {
            with_tally("decode_image_float16", hdr, &|tally| {
                let wanted = (refusal == 0).then_some(halves.as_slice());
                lend(self.out_len, wanted, row, "decode_image_float16", refusal, |out| {
                    let ImageCase { footprint, width, height, .. } = *self;
                    library::raw::decode_image_float16(footprint, width, height, &self.blocks, out, tally)
                })
            })
        })
    }

    fn smaller(&self) -> Vec<ImageCase> {
        let mut cases = Vec::new();
        if self.refusal() != 0 {
            for footprint in 0..self.footprint.min(14) {
                cases.push(ImageCase { footprint, ..self.clone() });
            }
            for (width, height) in [(self.width / 2, self.height), (self.width, self.height / 2)] {
                if (width, height) != (self.width, self.height) {
                    cases.push(ImageCase { width, height, ..self.clone() });
                }
            }
            for (len, out_len) in [(self.blocks.len() / 2, self.out_len), (self.blocks.len(), self.out_len / 2)] {
                if (len, out_len) != (self.blocks.len(), self.out_len) {
                    cases.push(ImageCase { blocks: self.blocks[..len].to_vec(), out_len, ..*self });
                }
            }
            if self.tally_len != 3 {
                cases.push(ImageCase { tally_len: 3, ..self.clone() });
            }
            return cases;
        }
        let (w, h) = FOOTPRINTS[self.footprint as usize];
        for width in [1, self.width / 2, self.width - 1] {
            if (1..self.width).contains(&width) {
                cases.push(self.part(0, 0, width, self.height));
            }
        }
        for height in [1, self.height / 2, self.height - 1] {
            if (1..self.height).contains(&height) {
                cases.push(self.part(0, 0, self.width, height));
            }
        }
        for left in [self.width / w as u32 / 2, 1] {
            if left > 0 && left * (w as u32) < self.width {
                cases.push(self.part(left as usize, 0, self.width - left * w as u32, self.height));
            }
        }
        for top in [self.height / h as u32 / 2, 1] {
            if top > 0 && top * (h as u32) < self.height {
                cases.push(self.part(0, top as usize, self.width, self.height - top * h as u32));
            }
        }
        for at in (0..self.blocks.len()).step_by(16) {
            if self.blocks[at..at + 16] != PLAIN {
                let mut case = self.clone();
                case.blocks[at..at + 16].copy_from_slice(&PLAIN);
                cases.push(case);
            }
        }
        cases
    }
}

impl fmt::Display for ImageCase {
    fn fmt(&self, f: &mut fmt::Formatter) -> fmt::Result {
        let (name, len) = (size_name(self.footprint), self.blocks.len());
        writeln!(
            f,
            "image call, {name}, {} by {}, {len} block bytes, out length {}, tally length {}",
            self.width, self.height, self.out_len, self.tally_len
        )?;
        for (index, block) in self.blocks.chunks(16).enumerate().take(64) {
            let fault = match block.try_into() {
                Ok(block) if self.footprint < 14 => {
                    [Kind::Unorm16, Kind::Float16].map(|kind| reference::fault(self.footprint as usize, kind, block))
                }
                _ => [0, 0],
            };
            writeln!(f, "block {index}: {} fault {}, in kind 2 {}", hex(block), fault[0], fault[1])?;
        }
        if len > 64 * 16 {
            writeln!(f, "and {} blocks more", len / 16 - 64)?;
        }
        Ok(())
    }
}

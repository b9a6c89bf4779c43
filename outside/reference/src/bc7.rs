//! A second reader and writer of BC7 blocks (BPTC RGBA), written from 004's chapter 13 and request l of 02 only.
//!
//! Where 004 is misprinted or silent, docs/DECISIONS.md says what is taken and why.

use crate::random::Random;
use crate::{Tally, refusals};

/// A row of Table 13.3.
#[derive(Clone, Copy, PartialEq, Eq, Debug)]
pub struct Mode {
    pub subsets: usize,
    pub partition_bits: u32,
    pub rotation_bits: u32,
    pub selection_bits: u32,
    pub colour_bits: u32,
    pub alpha_bits: u32,
    pub endpoint_p_bits: u32,
    pub shared_p_bits: u32,
    pub index_bits: [u32; 2],
}

#[rustfmt::skip]
const fn mode(n: [u32; 10]) -> Mode {
    Mode {
        subsets: n[0] as usize, partition_bits: n[1], rotation_bits: n[2], selection_bits: n[3], colour_bits: n[4],
        alpha_bits: n[5], endpoint_p_bits: n[6], shared_p_bits: n[7], index_bits: [n[8], n[9]],
    }
}

/// Table 13.3.
pub static MODES: [Mode; 8] = [
    mode([3, 4, 0, 0, 4, 0, 1, 0, 3, 0]),
    mode([2, 6, 0, 0, 6, 0, 0, 1, 3, 0]),
    mode([3, 6, 0, 0, 5, 0, 0, 0, 2, 0]),
    mode([2, 6, 0, 0, 7, 0, 1, 0, 2, 0]),
    mode([1, 0, 2, 1, 5, 6, 0, 0, 2, 3]),
    mode([1, 0, 2, 0, 7, 8, 0, 0, 2, 2]),
    mode([1, 0, 0, 0, 7, 7, 1, 0, 4, 0]),
    mode([2, 6, 0, 0, 5, 5, 1, 0, 2, 0]),
];

impl Mode {
    /// Four with alpha, three without.
    pub fn channels(&self) -> usize {
        if self.alpha_bits > 0 { 4 } else { 3 }
    }

    fn channel_bits(&self, channel: usize) -> u32 {
        if channel == 3 { self.alpha_bits } else { self.colour_bits }
    }

    pub fn p_bit_count(&self) -> usize {
        self.subsets * (2 * self.endpoint_p_bits + self.shared_p_bits) as usize
    }

    /// Bits of index `texel` of a set (0 primary, 1 secondary): one less at an anchor.
    pub fn index_width(&self, partition: usize, set: usize, texel: usize) -> u32 {
        let bits = self.index_bits[set];
        if bits > 0 && self.is_anchor(partition, texel) { bits - 1 } else { bits }
    }

    pub fn is_anchor(&self, partition: usize, texel: usize) -> bool {
        texel == 0
            || self.subsets == 2 && texel == SECOND_OF_TWO[partition]
            || self.subsets == 3 && (texel == SECOND_OF_THREE[partition] || texel == THIRD_OF_THREE[partition])
    }

    pub fn subset(&self, partition: usize, texel: usize) -> usize {
        match self.subsets {
            1 => 0,
            2 => (TWO[partition][texel] - b'0') as usize,
            _ => (THREE[partition][texel] - b'0') as usize,
        }
    }
}

/// A block's fields as stored, in the block's order; a field that the mode lacks is 0.
#[derive(Clone, Copy, PartialEq, Eq, Debug)]
pub struct Sheet {
    pub mode: u8,
    pub partition: u8,
    pub rotation: u8,
    pub selection: u8,
    /// Channel by channel; for each its subsets, for each of these its two ends.
    pub endpoints: [u8; 18],
    pub p_bits: [u8; 6],
    /// Primary, then secondary.
    pub indices: [[u8; 16]; 2],
}

/// Numbers of a sheet's flat form.
pub const NUMBERS: usize = 60;

impl Sheet {
    pub const ZERO: Sheet = Sheet {
        mode: 0,
        partition: 0,
        rotation: 0,
        selection: 0,
        endpoints: [0; 18],
        p_bits: [0; 6],
        indices: [[0; 16]; 2],
    };

    /// All fields in the order of their declaration.
    pub fn to_numbers(&self) -> [u8; NUMBERS] {
        let mut numbers = [0; NUMBERS];
        numbers[..4].copy_from_slice(&[self.mode, self.partition, self.rotation, self.selection]);
        numbers[4..22].copy_from_slice(&self.endpoints);
        numbers[22..28].copy_from_slice(&self.p_bits);
        numbers[28..44].copy_from_slice(&self.indices[0]);
        numbers[44..60].copy_from_slice(&self.indices[1]);
        numbers
    }

    pub fn from_numbers(numbers: &[u8; NUMBERS]) -> Sheet {
        let mut s = Sheet::ZERO;
        [s.mode, s.partition, s.rotation, s.selection] = numbers[..4].try_into().unwrap();
        s.endpoints.copy_from_slice(&numbers[4..22]);
        s.p_bits.copy_from_slice(&numbers[22..28]);
        s.indices[0].copy_from_slice(&numbers[28..44]);
        s.indices[1].copy_from_slice(&numbers[44..60]);
        s
    }

    /// Each field behind the mode with its bits, in the order in which the block holds them, absent ones among them.
    /// The mode must be 0 to 7. A partition past its bits counts as 0 for the anchors.
    fn fields(&mut self) -> Vec<(&mut u8, u32)> {
        let m = &MODES[self.mode as usize];
        let partition = if (self.partition as u32) < 1 << m.partition_bits { self.partition as usize } else { 0 };
        let mut fields = vec![
            (&mut self.partition, m.partition_bits),
            (&mut self.rotation, m.rotation_bits),
            (&mut self.selection, m.selection_bits),
        ];
        let of_channel = 2 * m.subsets;
        for (i, e) in self.endpoints.iter_mut().enumerate() {
            let channel = i / of_channel;
            fields.push((e, if channel < m.channels() { m.channel_bits(channel) } else { 0 }));
        }
        for (i, p) in self.p_bits.iter_mut().enumerate() {
            fields.push((p, (i < m.p_bit_count()) as u32));
        }
        for (set, indices) in self.indices.iter_mut().enumerate() {
            for (texel, index) in indices.iter_mut().enumerate() {
                fields.push((index, m.index_width(partition, set, texel)));
            }
        }
        fields
    }
}

/// 71 for a reserved block (a first byte of 0), otherwise 0.
pub fn fault(block: &[u8; 16]) -> u8 {
    if block[0] == 0 { 71 } else { 0 }
}

/// The bits of a block that are still to be read.
struct Bits(u128);

impl Bits {
    fn take(&mut self, n: u32) -> u8 {
        let value = (self.0 & ((1 << n) - 1)) as u8;
        self.0 >>= n;
        value
    }
}

/// The block's sheet, or its fault.
pub fn read(block: &[u8; 16]) -> Result<Sheet, u8> {
    if block[0] == 0 {
        return Err(71);
    }
    let mode = block[0].trailing_zeros();
    let m = &MODES[mode as usize];
    let mut bits = Bits(u128::from_le_bytes(*block) >> (mode + 1));
    let mut s = Sheet { mode: mode as u8, ..Sheet::ZERO };
    s.partition = bits.take(m.partition_bits);
    s.rotation = bits.take(m.rotation_bits);
    s.selection = bits.take(m.selection_bits);
    let of_channel = 2 * m.subsets;
    for channel in 0..m.channels() {
        for e in &mut s.endpoints[of_channel * channel..of_channel * (channel + 1)] {
            *e = bits.take(m.channel_bits(channel));
        }
    }
    for p in &mut s.p_bits[..m.p_bit_count()] {
        *p = bits.take(1);
    }
    for set in 0..2 {
        if m.index_bits[set] > 0 {
            for texel in 0..16 {
                s.indices[set][texel] = bits.take(m.index_width(s.partition as usize, set, texel));
            }
        }
    }
    Ok(s)
}

/// Why a sheet is not acceptable: 72, then 73, or 0.
pub fn refusal(sheet: &Sheet) -> u8 {
    if sheet.mode > 7 {
        return 72;
    }
    let mut s = *sheet;
    if s.fields().iter().any(|(field, bits)| **field as u32 >= 1 << *bits) { 73 } else { 0 }
}

/// The sheet's block, or its refusal.
pub fn write(sheet: &Sheet) -> Result<[u8; 16], u8> {
    match refusal(sheet) {
        0 => {
            let mut s = *sheet;
            let mut at = s.mode as u32;
            let mut block = 1u128 << at;
            at += 1;
            for (field, bits) in s.fields() {
                if bits > 0 {
                    block |= (*field as u128) << at;
                }
                at += bits;
            }
            Ok(block.to_le_bytes())
        }
        refusal => Err(refusal),
    }
}

/// Table 13.1 for indices of 2, 3 and 4 bits.
fn factor(bits: u32, index: u8) -> u32 {
    const FACTORS: [&[u8]; 3] = [
        &[0, 21, 43, 64],
        &[0, 9, 18, 27, 37, 46, 55, 64],
        &[0, 4, 9, 13, 17, 21, 26, 30, 34, 38, 43, 47, 51, 55, 60, 64],
    ];
    FACTORS[bits as usize - 2][index as usize] as u32
}

/// An endpoint's channel with the P bit (if any) below it, its top bits repeated to fill the byte.
fn widen(stored: u8, bits: u32, p_bit: Option<u8>) -> u32 {
    let (value, bits) = match p_bit {
        Some(p) => ((stored as u32) << 1 | p as u32, bits + 1),
        None => (stored as u32, bits),
    };
    let high = value << (8 - bits);
    high | high >> bits
}

/// The ends of each subset, ready to be mixed.
type Ends = [[[u32; 4]; 2]; 3];

fn ends(m: &Mode, s: &Sheet) -> Ends {
    let mut ends = [[[255; 4]; 2]; 3];
    for (subset, pair) in ends.iter_mut().enumerate().take(m.subsets) {
        for (end, colour) in pair.iter_mut().enumerate() {
            let p_bit = match (m.endpoint_p_bits, m.shared_p_bits) {
                (1, _) => Some(s.p_bits[2 * subset + end]),
                (_, 1) => Some(s.p_bits[subset]),
                _ => None,
            };
            for channel in 0..m.channels() {
                let stored = s.endpoints[2 * m.subsets * channel + 2 * subset + end];
                colour[channel] = widen(stored, m.channel_bits(channel), p_bit);
            }
        }
    }
    ends
}

/// What an acceptable sheet shows: sixteen texels, rows first.
pub fn picture(s: &Sheet) -> [[u8; 4]; 16] {
    let m = &MODES[s.mode as usize];
    let ends = ends(m, s);
    let secondary = m.index_bits[1] > 0;
    let colour_set = (m.selection_bits > 0 && s.selection == 1) as usize;
    let alpha_set = (secondary && (m.selection_bits == 0 || s.selection == 0)) as usize;
    let mut texels = [[0; 4]; 16];
    for (i, texel) in texels.iter_mut().enumerate() {
        let [e0, e1] = &ends[m.subset(s.partition as usize, i)];
        let colour = factor(m.index_bits[colour_set], s.indices[colour_set][i]);
        let alpha = factor(m.index_bits[alpha_set], s.indices[alpha_set][i]);
        for channel in 0..4 {
            let f = if channel == 3 { alpha } else { colour };
            texel[channel] = ((e0[channel] * (64 - f) + e1[channel] * f + 32) / 64) as u8;
        }
        if s.rotation > 0 {
            texel.swap(3, s.rotation as usize - 1);
        }
    }
    texels
}

/// What a block shows: the picture of its sheet, zeros where it has none.
pub fn decode(block: &[u8; 16]) -> [[u8; 4]; 16] {
    match read(block) {
        Ok(s) => picture(&s),
        Err(_) => [[0; 4]; 16],
    }
}

/// The one-block call's refusal: 4, 5.
pub fn block_refusal(block_len: usize, out_len: usize) -> u8 {
    // Footprint 0 of ASTC has the same sixteen texels.
    refusals::block_refusal(0, block_len, out_len)
}

/// The one-block call: the refusal with `out` as it was, or the fault and the texels.
#[inline(never)]
pub fn decode_block(block: &[u8], out: &mut [u8]) -> u8 {
    let (Ok(block), Ok(out)) = (<&[u8; 16]>::try_from(block), <&mut [u8; 64]>::try_from(&mut *out)) else {
        return block_refusal(block.len(), out.len());
    };
    out.copy_from_slice(decode(block).as_flattened());
    fault(block)
}

/// The image call's refusal: 3, 4, 5.
pub fn image_refusal(width: u32, height: u32, blocks_len: usize, out_len: usize) -> u8 {
    refusals::image_refusal(0, width, height, blocks_len, out_len)
}

/// Blocks in raster order into an image, rows first; texels outside it are dropped.
pub fn decode_image(width: u32, height: u32, blocks: &[u8], out: &mut [u8]) -> Tally {
    let (width, height) = (width as usize, height as usize);
    let across = width.div_ceil(4);
    let mut tally = Tally::default();
    for (index, block) in blocks.as_chunks().0.iter().enumerate() {
        if fault(block) != 0 {
            if tally.faulty == 0 {
                tally.first_index = index as u64;
                tally.first_fault = fault(block);
            }
            tally.faulty += 1;
        }
        let texels = decode(block);
        let (left, top) = (index % across * 4, index / across * 4);
        let columns = (width - left).min(4);
        for row in 0..(height - top).min(4) {
            let at = 4 * ((top + row) * width + left);
            out[at..at + 4 * columns].copy_from_slice(texels[4 * row..4 * row + columns].as_flattened());
        }
    }
    tally
}

/// An acceptable sheet of a mode.
pub fn random_sheet(r: &mut Random, mode: u8) -> Sheet {
    let mut s = Sheet { mode, ..Sheet::ZERO };
    // The partition comes first: the anchors' widths depend on it.
    s.partition = r.number((1 << MODES[mode as usize].partition_bits) - 1) as u8;
    for (field, bits) in s.fields().into_iter().skip(1) {
        *field = r.number((1 << bits) - 1) as u8;
    }
    s
}

/// Table 13.5, four rows of four for each partition; partitions 14 and 46 are corrected.
#[rustfmt::skip]
static TWO: [&[u8; 16]; 64] = [
    b"0011001100110011", b"0001000100010001", b"0111011101110111", b"0001001100110111",
    b"0000000100010011", b"0011011101111111", b"0001001101111111", b"0000000100110111",
    b"0000000000010011", b"0011011111111111", b"0000000101111111", b"0000000000010111",
    b"0001011111111111", b"0000000011111111", b"0000111111111111", b"0000000000001111",
    b"0000100011101111", b"0111000100000000", b"0000000010001110", b"0111001100010000",
    b"0011000100000000", b"0000100011001110", b"0000000010001100", b"0111001100110001",
    b"0011000100010000", b"0000100010001100", b"0110011001100110", b"0011011001101100",
    b"0001011111101000", b"0000111111110000", b"0111000110001110", b"0011100110011100",
    b"0101010101010101", b"0000111100001111", b"0101101001011010", b"0011001111001100",
    b"0011110000111100", b"0101010110101010", b"0110100101101001", b"0101101010100101",
    b"0111001111001110", b"0001001111001000", b"0011001001001100", b"0011101111011100",
    b"0110100110010110", b"0011110011000011", b"0110011010011001", b"0000011001100000",
    b"0100111001000000", b"0010011100100000", b"0000001001110010", b"0000010011100100",
    b"0110110010010011", b"0011011011001001", b"0110001110011100", b"0011100111000110",
    b"0110110011001001", b"0110001100111001", b"0111111010000001", b"0001100011100111",
    b"0000111100110011", b"0011001111110000", b"0010001011101110", b"0100010001110111",
];

/// Table 13.6; partition 55 is corrected.
#[rustfmt::skip]
static THREE: [&[u8; 16]; 64] = [
    b"0011001102212222", b"0001001122112221", b"0000200122112211", b"0222002200110111",
    b"0000000011221122", b"0011001100220022", b"0022002211111111", b"0011001122112211",
    b"0000000011112222", b"0000111111112222", b"0000111122222222", b"0012001200120012",
    b"0112011201120112", b"0122012201220122", b"0011011211221222", b"0011200122002220",
    b"0001001101121122", b"0111001120012200", b"0000112211221122", b"0022002200221111",
    b"0111011102220222", b"0001000122212221", b"0000001101220122", b"0000110022102210",
    b"0122012200110000", b"0012001211222222", b"0110122112210110", b"0000011012211221",
    b"0022110211020022", b"0110011020022222", b"0011012201220011", b"0000200022112221",
    b"0000000211221222", b"0222002200120011", b"0011001200220222", b"0120012001200120",
    b"0000111122220000", b"0120120120120120", b"0120201212010120", b"0011220011220011",
    b"0011112222000011", b"0101010122222222", b"0000000021212121", b"0022112200221122",
    b"0022001100220011", b"0220122102201221", b"0101222222220101", b"0000212121212121",
    b"0101010101012222", b"0222011102220111", b"0002111200021112", b"0000211221122112",
    b"0222011101110222", b"0002111211120002", b"0110011001102222", b"0000000021122112",
    b"0110011022222222", b"0022001100110022", b"0022112211220022", b"0000000000002112",
    b"0002000100020001", b"0222122202221222", b"0101222222222222", b"0111201122012220",
];

/// Table 13.7.
#[rustfmt::skip]
static SECOND_OF_TWO: [usize; 64] = [
    15, 15, 15, 15, 15, 15, 15, 15,
    15, 15, 15, 15, 15, 15, 15, 15,
    15, 2, 8, 2, 2, 8, 8, 15,
    2, 8, 2, 2, 8, 8, 2, 2,
    15, 15, 6, 8, 2, 8, 15, 15,
    2, 8, 2, 2, 2, 15, 15, 6,
    6, 2, 6, 8, 15, 15, 2, 2,
    15, 15, 15, 15, 15, 2, 2, 15,
];

/// Table 13.8.
#[rustfmt::skip]
static SECOND_OF_THREE: [usize; 64] = [
    3, 3, 15, 15, 8, 3, 15, 15,
    8, 8, 6, 6, 6, 5, 3, 3,
    3, 3, 8, 15, 3, 3, 6, 10,
    5, 8, 8, 6, 8, 5, 15, 15,
    8, 15, 3, 5, 6, 10, 8, 15,
    15, 3, 15, 5, 15, 15, 15, 15,
    3, 15, 5, 5, 5, 8, 5, 10,
    5, 10, 8, 13, 15, 12, 3, 3,
];

/// Table 13.9.
#[rustfmt::skip]
static THIRD_OF_THREE: [usize; 64] = [
    15, 8, 8, 3, 15, 15, 3, 8,
    15, 15, 15, 15, 15, 15, 15, 8,
    15, 8, 15, 3, 15, 8, 15, 8,
    3, 15, 6, 10, 15, 15, 10, 8,
    15, 3, 15, 10, 10, 8, 9, 10,
    6, 15, 8, 15, 3, 6, 6, 8,
    15, 3, 15, 15, 15, 15, 15, 15,
    15, 15, 15, 15, 3, 15, 15, 8,
];

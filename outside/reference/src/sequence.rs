//! Integer sequence encoding (000, "Integer Sequence Encoding"; 01, "Packed numbers").

use crate::tables::{Digit, Encoding, QUINT_CODES, QUINTS, TRIT_CODES, TRITS};

/// Bits of n packed numbers.
pub const fn bit_count(encoding: Encoding, n: u32) -> u32 {
    n * encoding.bits
        + match encoding.digit {
            Digit::None => 0,
            Digit::Trit => (8 * n).div_ceil(5),
            Digit::Quint => (7 * n).div_ceil(3),
        }
}

/// Code bits that lie behind each number of a group.
pub const TRIT_STEPS: [u32; 5] = [2, 2, 1, 2, 1];
pub const QUINT_STEPS: [u32; 3] = [3, 2, 2];

/// Unpacks n numbers that start at bit 0 of `stream`; bits past the sequence's end are 0.
#[inline]
pub fn unpack(encoding: Encoding, n: usize, stream: u128, mut put: impl FnMut(usize, u16)) {
    let b = encoding.bits;
    let low = (1u64 << b) - 1;
    let stream = stream & ((1 << bit_count(encoding, n as u32)) - 1);
    match encoding.digit {
        Digit::None => {
            for i in 0..n {
                put(i, ((stream >> (i as u32 * b)) as u64 & low) as u16);
            }
        }
        Digit::Trit => {
            for first in (0..n).step_by(5) {
                // At most 8 + 5 * 6 bits.
                let mut group = (stream >> (first as u32 / 5 * (8 + 5 * b))) as u64;
                let (mut m, mut code, mut at) = ([0; 5], 0, 0);
                for k in 0..5 {
                    m[k] = group & low;
                    group >>= b;
                    code |= (group & ((1 << TRIT_STEPS[k]) - 1)) << at;
                    group >>= TRIT_STEPS[k];
                    at += TRIT_STEPS[k];
                }
                let digits = TRITS[code as usize & 255];
                for k in 0..5.min(n - first) {
                    put(first + k, ((digits[k] as u64) << b | m[k]) as u16);
                }
            }
        }
        Digit::Quint => {
            for first in (0..n).step_by(3) {
                let mut group = (stream >> (first as u32 / 3 * (7 + 3 * b))) as u64;
                let (mut m, mut code, mut at) = ([0; 3], 0, 0);
                for k in 0..3 {
                    m[k] = group & low;
                    group >>= b;
                    code |= (group & ((1 << QUINT_STEPS[k]) - 1)) << at;
                    group >>= QUINT_STEPS[k];
                    at += QUINT_STEPS[k];
                }
                let digits = QUINTS[code as usize & 127];
                for k in 0..3.min(n - first) {
                    put(first + k, ((digits[k] as u64) << b | m[k]) as u16);
                }
            }
        }
    }
}

/// Where a sequence ended (02, g).
#[derive(Clone, Copy, PartialEq, Eq, Debug)]
pub struct Ending {
    /// The position after its last bit, counted from its first.
    pub end: u32,
    /// The cut group's missing digits came out as zero; also where no group is cut.
    pub zero: bool,
}

/// Digits that the last group of n numbers has: 0 where it is whole or there are no digits.
pub fn present(encoding: Encoding, n: usize) -> usize {
    match encoding.digit {
        Digit::None => 0,
        Digit::Trit => n % 5,
        Digit::Quint => n % 3,
    }
}

/// Of n numbers that start at bit 0 of `stream`. The missing digits are those of the cut group's code, bits past the end being read as 0.
pub fn ending(encoding: Encoding, n: usize, stream: u128) -> Ending {
    let end = bit_count(encoding, n as u32);
    let present = present(encoding, n);
    if present == 0 {
        return Ending { end, zero: true };
    }
    let steps: &[u32] = if encoding.digit == Digit::Trit { &TRIT_STEPS } else { &QUINT_STEPS };
    let mut at = bit_count(encoding, (n - present) as u32);
    let (mut code, mut width) = (0, 0);
    for step in &steps[..present] {
        at += encoding.bits;
        code |= (stream >> at & ((1 << step) - 1)) << width;
        at += step;
        width += step;
    }
    assert_eq!(at, end);
    let digits: &[u8] = if encoding.digit == Digit::Trit { &TRITS[code as usize] } else { &QUINTS[code as usize] };
    Ending { end, zero: digits[present..].iter().all(|&d| d == 0) }
}

/// Packs numbers from bit 0 on; `code` picks the code of a group's present digits.
pub fn pack_by(encoding: Encoding, numbers: &[u16], mut code: impl FnMut(Digit, &[u8]) -> u8) -> u128 {
    let b = encoding.bits;
    let (size, steps): (usize, &[u32]) = match encoding.digit {
        Digit::None => (1, &[0]),
        Digit::Trit => (5, &TRIT_STEPS),
        Digit::Quint => (3, &QUINT_STEPS),
    };
    let (mut stream, mut at) = (0u128, 0);
    for group in numbers.chunks(size) {
        let mut digits = [0; 5];
        for (digit, number) in digits.iter_mut().zip(group) {
            *digit = (number >> b) as u8;
        }
        let mut code = match encoding.digit {
            Digit::None => 0,
            digit => code(digit, &digits[..group.len()]),
        };
        for (number, step) in group.iter().zip(steps) {
            stream |= ((number & ((1 << b) - 1)) as u128) << at;
            at += b;
            stream |= ((code & ((1 << step) - 1)) as u128) << at;
            at += step;
            code >>= step;
        }
    }
    stream
}

/// The smallest code whose first digits are these.
pub fn smallest_code(digit: Digit, digits: &[u8]) -> u8 {
    let number = |base| digits.iter().rev().fold(0, |n, &d| n * base + d as usize);
    match digit {
        Digit::None => 0,
        Digit::Trit => TRIT_CODES[digits.len()][number(3)],
        Digit::Quint => QUINT_CODES[digits.len()][number(5)],
    }
}

#[cfg(test)]
mod tests {
    use super::*;
    use crate::tables::{ENDPOINT_RANGES, WEIGHT_RANGES};

    #[test]
    fn bit_counts() {
        assert_eq!(bit_count(WEIGHT_RANGES[4], 6), 16);
        assert_eq!(bit_count(ENDPOINT_RANGES[0], 18), 47);
        assert_eq!(bit_count(WEIGHT_RANGES[3], 1), 3);
        // The smallest endpoint range takes ceil(13C/5) bits.
        for count in 0..=18 {
            assert_eq!(bit_count(ENDPOINT_RANGES[0], count), (13 * count).div_ceil(5));
        }
    }

    /// 02, g: digits, not bits. One trit of code 3 leaves 0, 2, 0, 0; four with T[4:2] = 111 leave 2; so do eight of our own smallest codes.
    #[test]
    fn endings() {
        let (trits, quints) = (WEIGHT_RANGES[1], WEIGHT_RANGES[3]);
        assert_eq!(ending(trits, 0, u128::MAX), Ending { end: 0, zero: true });
        assert_eq!(ending(trits, 5, u128::MAX), Ending { end: 8, zero: true });
        assert_eq!(ending(trits, 1, 2), Ending { end: 2, zero: true });
        assert_eq!(ending(trits, 1, 3), Ending { end: 2, zero: false });
        assert_eq!(ending(trits, 4, 28), Ending { end: 7, zero: false });
        assert_eq!(ending(quints, 1, 7), Ending { end: 3, zero: false });
        assert_eq!(ending(quints, 2, 0b01111), Ending { end: 5, zero: false });
        let ours = |n: usize| {
            let numbers: Vec<u16> = (0..4).map(|k| (n / 3usize.pow(k) % 3) as u16).collect();
            !ending(trits, 4, pack_by(trits, &numbers, smallest_code)).zero
        };
        assert_eq!((0..81).filter(|&n| ours(n)).count(), 8);
        // 2, 1, 0, 2
        assert!(ours(2 + 3 + 2 * 27));
    }

    /// The table's code is the first of all codes in order, and fits into the bits present.
    #[test]
    fn smallest_codes() {
        assert_eq!(smallest_code(Digit::Trit, &[2, 0, 2, 0, 0]), 11);
        for present in 1..=5 {
            let bits: u32 = TRIT_STEPS[..present].iter().sum();
            for number in 0..3usize.pow(present as u32) {
                let digits: Vec<u8> = (0..present).map(|k| (number / 3usize.pow(k as u32) % 3) as u8).collect();
                let first = (0..256).find(|&code| TRITS[code].starts_with(&digits)).unwrap();
                assert_eq!(smallest_code(Digit::Trit, &digits) as usize, first);
                assert!(first < 1 << bits);
            }
        }
        for present in 1..=3 {
            let bits: u32 = QUINT_STEPS[..present].iter().sum();
            for number in 0..5usize.pow(present as u32) {
                let digits: Vec<u8> = (0..present).map(|k| (number / 5usize.pow(k as u32) % 5) as u8).collect();
                let first = (0..128).find(|&code| QUINTS[code].starts_with(&digits)).unwrap();
                assert_eq!(smallest_code(Digit::Quint, &digits) as usize, first);
                assert!(first < 1 << bits);
            }
        }
    }

    /// Every count and range comes back, and nothing is set past the sequence's end.
    #[test]
    fn packed_and_back() {
        let mut seed = 1u64;
        for encoding in WEIGHT_RANGES.into_iter().chain(ENDPOINT_RANGES) {
            for count in 0..=64 {
                if bit_count(encoding, count) > 120 {
                    continue;
                }
                for _ in 0..20 {
                    let numbers: Vec<u16> = (0..count)
                        .map(|_| {
                            seed = seed.wrapping_mul(6364136223846793005).wrapping_add(1442695040888963407);
                            (seed >> 40) as u16 % (encoding.most + 1)
                        })
                        .collect();
                    let stream = pack_by(encoding, &numbers, smallest_code);
                    assert_eq!(stream >> bit_count(encoding, count), 0);
                    let mut back = vec![0; count as usize];
                    let noise = u128::MAX << bit_count(encoding, count);
                    unpack(encoding, count as usize, stream | noise, |i, v| back[i] = v);
                    assert_eq!(back, numbers);
                }
            }
        }
    }
}

//! Blocks and what astcenc shows of them. README.md tells how its output relates to 01's kinds.

pub mod bc7;
pub mod caption;
pub mod file;
pub mod pvrtc;
pub mod sheet;
pub mod volume;

/// The footprints in 01's order, then the volumes in 02's.
#[rustfmt::skip]
const FOOTPRINTS: [[usize; 3]; 24] = [
    [4, 4, 1], [5, 4, 1], [5, 5, 1], [6, 5, 1], [6, 6, 1], [8, 5, 1], [8, 6, 1], [8, 8, 1],
    [10, 5, 1], [10, 6, 1], [10, 8, 1], [10, 10, 1], [12, 10, 1], [12, 12, 1],
    [3, 3, 3], [4, 3, 3], [4, 4, 3], [4, 4, 4], [5, 4, 4], [5, 5, 4], [5, 5, 5], [6, 5, 5], [6, 6, 5], [6, 6, 6],
];

/// Texels of a block.
pub fn texels(footprint: usize) -> usize {
    FOOTPRINTS[footprint].iter().product()
}

/// A one-block call: footprint, block, texels; answers the fault.
pub type Call<T> = dyn Fn(usize, &[u8; 16], &mut [T]) -> u8;

/// A decoder to check.
pub struct Decoder<'a> {
    /// Kind 0.
    pub unorm16: &'a Call<u16>,
    /// Kind 1.
    pub srgb8: &'a Call<u8>,
    /// Kind 2.
    pub float16: &'a Call<u16>,
}

/// Stored files, of flat footprints or of volumes.
#[derive(Clone, Copy)]
pub struct Files<'a> {
    /// Footprint, block, then for each texel four half floats and four sRGB bytes.
    pub texels: &'a [u8],
    /// Footprint, block, CRC-32 of all half floats, CRC-32 of all sRGB bytes.
    pub digests: &'a [u8],
    /// Footprint, block: the error colour in all texels, in every decoding.
    pub illegal: &'a [u8],
    /// Footprint, block: HDR, so wholly or partly the error colour in LDR decodings only.
    pub hdr: &'a [u8],
    /// Footprint, block, then for each texel four half floats: HDR.
    pub float16: &'a [u8],
    /// Footprint, block, CRC-32 of all half floats: HDR.
    pub float16_digests: &'a [u8],
}

/// The files beside this crate: flat footprints.
pub const STORED: Files<'static> = Files {
    texels: include_bytes!("../data/texels.bin"),
    digests: include_bytes!("../data/digests.bin"),
    illegal: include_bytes!("../data/illegal.bin"),
    hdr: include_bytes!("../data/hdr.bin"),
    float16: include_bytes!("../data/float16.bin"),
    float16_digests: include_bytes!("../data/float16_digests.bin"),
};

/// The files beside this crate: volumes.
pub const STORED_VOLUMES: Files<'static> = Files {
    texels: include_bytes!("../data/volume_texels.bin"),
    digests: include_bytes!("../data/volume_digests.bin"),
    illegal: include_bytes!("../data/volume_illegal.bin"),
    hdr: include_bytes!("../data/volume_hdr.bin"),
    float16: include_bytes!("../data/volume_float16.bin"),
    float16_digests: include_bytes!("../data/volume_float16_digests.bin"),
};

/// What a check found.
#[derive(Default, Debug)]
pub struct Outcome {
    /// Blocks of each file that agree: texels, digests, illegal, hdr, float16, float16_digests.
    pub passed: [u64; 6],
    /// Those that don't, described.
    pub failed: Vec<String>,
}

/// The half float that astcenc shows for a kind 0 number: 1.0 for 65535, else c / 65536
/// rounded towards zero (000, "Weight Application").
pub fn half_float(c: u16) -> u16 {
    if c == 65535 {
        return 0x3C00;
    }
    if c == 0 {
        return 0;
    }
    let top = 15 - c.leading_zeros();
    if top < 2 {
        // Below 2^-14: subnormal, in steps of 2^-24.
        return c << 8;
    }
    // Ten bits below the top one; c / 65536 lies from 2^(top - 16) on.
    let mantissa = ((c as u32) << 10 >> top) & 0x3FF;
    ((top + 15 - 16) << 10 | mantissa) as u16
}

/// Stored half floats, little-endian.
fn half_floats(stored: &[u8]) -> Vec<u16> {
    stored.as_chunks::<2>().0.iter().map(|&h| u16::from_le_bytes(h)).collect()
}

/// The stored half floats are the numbers of kind 2, and tell those of kind 0 as far as they can.
fn are_half_floats(stored: &[u8], unorm16: &[u16], float16: &[u16]) -> bool {
    let halves = half_floats(stored);
    halves == float16 && halves.into_iter().eq(unorm16.iter().map(|&c| half_float(c)))
}

/// The half float that astcenc shows for a colour of an HDR void extent: a NaN becomes a quiet one, all others stay.
pub fn quiet(pattern: u16) -> u16 {
    if pattern & 0x7FFF > 0x7C00 { pattern | 0x200 } else { pattern }
}

/// Of a block without fault. An HDR void extent shows its colours as stored (02, i), where astcenc shows them quiet.
fn is_hdr_void_extent(block: &[u8; 16]) -> bool {
    block[0] == 0xFC && block[1] & 0x03 == 0x03
}

/// CRC-32 as zlib computes it.
pub fn crc32(bytes: &[u8]) -> u32 {
    const TABLE: [u32; 256] = {
        let mut table = [0; 256];
        let mut i = 0;
        while i < 256 {
            let (mut c, mut k) = (i as u32, 0);
            while k < 8 {
                c = c >> 1 ^ if c & 1 == 1 { 0xEDB88320 } else { 0 };
                k += 1;
            }
            table[i] = c;
            i += 1;
        }
        table
    };
    !bytes.iter().fold(!0, |c, &b| c >> 8 ^ TABLE[(c as u8 ^ b) as usize])
}

fn little_endian(numbers: impl IntoIterator<Item = u16>) -> Vec<u8> {
    numbers.into_iter().flat_map(u16::to_le_bytes).collect()
}

/// Fault, half floats (little-endian) and sRGB bytes that astcenc must show if the decoder is right;
/// 255 where its kinds contradict each other.
fn as_astcenc(decoder: &Decoder, footprint: usize, block: &[u8; 16]) -> (u8, Vec<u8>, Vec<u8>) {
    let len = 4 * texels(footprint);
    let (mut numbers, mut bytes, mut shown) = (vec![0; len], vec![0; len], vec![0; len]);
    let fault = (decoder.unorm16)(footprint, block, &mut numbers);
    let other = (decoder.srgb8)(footprint, block, &mut bytes);
    let third = (decoder.float16)(footprint, block, &mut shown);
    let halves: Vec<u16> = numbers.iter().map(|&c| half_float(c)).collect();
    if (other, third) != (fault, fault) || halves != shown {
        return (255, Vec::new(), Vec::new());
    }
    (fault, little_endian(halves), bytes)
}

/// The half floats (little-endian) that astcenc must show of an HDR block if the decoder is right; none where it tells a fault in kind 2, or
/// shows other colours of a void extent than the stored ones.
fn hdr_as_astcenc(decoder: &Decoder, footprint: usize, block: &[u8; 16]) -> Option<Vec<u8>> {
    let mut shown = vec![0; 4 * texels(footprint)];
    if (decoder.float16)(footprint, block, &mut shown) != 0 {
        return None;
    }
    if is_hdr_void_extent(block) {
        if little_endian(shown.iter().copied()).chunks(8).any(|t| t != &block[8..]) {
            return None;
        }
        shown = shown.into_iter().map(quiet).collect();
    }
    Some(little_endian(shown))
}

/// No fault in kind 2.
fn is_sound(decoder: &Decoder, footprint: usize, block: &[u8; 16]) -> bool {
    (decoder.float16)(footprint, block, &mut vec![0; 4 * texels(footprint)]) == 0
}

/// All texels 65535 in kind 2, as astcenc's NaN, and the fault one of these.
fn is_nan(decoder: &Decoder, footprint: usize, block: &[u8; 16], faults: &[u8]) -> bool {
    let mut shown = vec![0; 4 * texels(footprint)];
    faults.contains(&(decoder.float16)(footprint, block, &mut shown)) && shown.iter().all(|&h| h == 65535)
}

/// All texels the error colour in kinds 0 and 1, and the fault one of these.
fn is_error(decoder: &Decoder, footprint: usize, block: &[u8; 16], faults: &[u8]) -> bool {
    let (mut numbers, mut bytes) = (vec![0; 4 * texels(footprint)], vec![0; 4 * texels(footprint)]);
    let fault = (decoder.unorm16)(footprint, block, &mut numbers);
    fault == (decoder.srgb8)(footprint, block, &mut bytes)
        && faults.contains(&fault)
        && numbers.chunks(4).all(|t| t == [65535, 0, 65535, 65535])
        && bytes.chunks(4).all(|t| t == [255, 0, 255, 255])
}

fn record<'a>(file: &mut &'a [u8], len: usize) -> &'a [u8] {
    let (head, rest) = file.split_at(len);
    *file = rest;
    head
}

/// Checks a decoder against the files.
pub fn check(decoder: &Decoder, files: &Files) -> Outcome {
    let mut outcome = Outcome::default();
    let mut note = |file: usize, what: &str, footprint: usize, block: &[u8; 16], agrees: bool| {
        if agrees {
            outcome.passed[file] += 1;
        } else {
            let [w, h, d] = FOOTPRINTS[footprint];
            outcome.failed.push(format!("{what}: footprint {footprint} ({w}x{h}x{d}), block {block:02X?}"));
        }
    };
    let head =
        |file: &mut &[u8]| -> (usize, [u8; 16]) { (record(file, 1)[0] as usize, record(file, 16).try_into().unwrap()) };
    let mut file = files.texels;
    while !file.is_empty() {
        let (footprint, block) = head(&mut file);
        let (fault, halves, bytes) = as_astcenc(decoder, footprint, &block);
        let expected_halves = record(&mut file, 8 * texels(footprint));
        let expected_bytes = record(&mut file, 4 * texels(footprint));
        note(0, "texels", footprint, &block, fault == 0 && halves == expected_halves && bytes == expected_bytes);
    }
    let mut file = files.digests;
    while !file.is_empty() {
        let (footprint, block) = head(&mut file);
        let (fault, halves, bytes) = as_astcenc(decoder, footprint, &block);
        let mut digest = || u32::from_le_bytes(record(&mut file, 4).try_into().unwrap());
        let (expected_halves, expected_bytes) = (digest(), digest());
        let agrees = fault == 0 && crc32(&halves) == expected_halves && crc32(&bytes) == expected_bytes;
        note(1, "digest", footprint, &block, agrees);
    }
    let mut file = files.illegal;
    while !file.is_empty() {
        let (footprint, block) = head(&mut file);
        let faults = [11, 12, 14, 15, 16, 17, 18, 19];
        let agrees = is_error(decoder, footprint, &block, &faults) && is_nan(decoder, footprint, &block, &faults);
        note(2, "illegal", footprint, &block, agrees);
    }
    let mut file = files.hdr;
    while !file.is_empty() {
        let (footprint, block) = head(&mut file);
        let agrees = is_error(decoder, footprint, &block, &[13, 20]) && is_sound(decoder, footprint, &block);
        note(3, "HDR", footprint, &block, agrees);
    }
    let mut file = files.float16;
    while !file.is_empty() {
        let (footprint, block) = head(&mut file);
        let expected = record(&mut file, 8 * texels(footprint));
        let agrees = hdr_as_astcenc(decoder, footprint, &block).is_some_and(|halves| halves == expected)
            && is_error(decoder, footprint, &block, &[13, 20]);
        note(4, "float16", footprint, &block, agrees);
    }
    let mut file = files.float16_digests;
    while !file.is_empty() {
        let (footprint, block) = head(&mut file);
        let expected = u32::from_le_bytes(record(&mut file, 4).try_into().unwrap());
        let agrees = hdr_as_astcenc(decoder, footprint, &block).is_some_and(|halves| crc32(&halves) == expected)
            && is_error(decoder, footprint, &block, &[13, 20]);
        note(5, "float16 digest", footprint, &block, agrees);
    }
    outcome
}

#[cfg(test)]
mod tests {
    use super::*;

    #[test]
    fn half_floats() {
        for c in 0..65535u16 {
            let half = half_float(c) as u32;
            let value = |half: u32| {
                let (exponent, mantissa) = (half >> 10, half & 0x3FF);
                if exponent == 0 {
                    mantissa as f64 / 2f64.powi(24)
                } else {
                    (1024 + mantissa) as f64 * 2f64.powi(exponent as i32 - 25)
                }
            };
            let exact = c as f64 / 65536.0;
            assert!(value(half) <= exact && exact < value(half + 1), "{c}");
        }
        assert_eq!(half_float(65535), 0x3C00);
        assert_eq!(half_float(21504), 0x3540);
    }

    #[test]
    fn quiet_nans() {
        assert_eq!([0x7C00, 0xFC00, 0x7C01, 0xFDFF].map(quiet), [0x7C00, 0xFC00, 0x7E01, 0xFFFF]);
        assert_eq!([0x7E00, 0x03FF, 0x8000].map(quiet), [0x7E00, 0x03FF, 0x8000]);
    }

    #[test]
    fn crc() {
        assert_eq!(crc32(b"123456789"), 0xCBF43926);
    }
}

//! PVRTC1 at 4 bits per pixel, from source document 002: an image of 64-bit words to bytes R, G, B, A.

/// 002, "word offset calculation": `reflectedMortonOffset`.
pub fn word_offset(x: usize, y: usize, word_width: usize, word_height: usize) -> usize {
    let smaller = word_width.min(word_height);
    let (mut offset, mut shift, mut mask) = (0, 0, 1);
    while mask < smaller {
        offset |= ((y & mask) | ((x & mask) << 1)) << shift;
        shift += 1;
        mask <<= 1;
    }
    offset | ((x | y) >> shift) << (2 * shift)
}

/// A colour as ARGB 4555, its channels in the order R, G, B, A.
type Colour = [u16; 4];

/// A word's two colours, its modulation bits and flag M.
#[derive(Clone, Copy)]
struct Word {
    a: Colour,
    b: Colour,
    modulation: u32,
    punch_through: bool,
}

fn three_to_five(v: u16) -> u16 {
    v << 2 | v >> 1
}

fn four_to_five(v: u16) -> u16 {
    v << 1 | v >> 3
}

/// The sixteen bits of colour B; colour A has one bit of blue less, given here as `blue_bits`, and M in its place.
fn colour(bits: u16, blue_bits: u32) -> Colour {
    let cut = 5 - blue_bits;
    if bits & 0x8000 != 0 {
        let blue = (bits & 31) >> cut;
        [bits >> 10 & 31, bits >> 5 & 31, if blue_bits == 5 { blue } else { four_to_five(blue) }, 15]
    } else {
        let blue = (bits & 15) >> cut;
        let blue = if blue_bits == 5 { four_to_five(blue) } else { three_to_five(blue) };
        [four_to_five(bits >> 8 & 15), four_to_five(bits >> 4 & 15), blue, (bits >> 12 & 7) << 1]
    }
}

fn unpack(bytes: &[u8]) -> Word {
    let half = |at: usize| u16::from_le_bytes([bytes[at], bytes[at + 1]]);
    Word {
        a: colour(half(4), 4),
        b: colour(half(6), 5),
        modulation: u32::from_le_bytes([bytes[0], bytes[1], bytes[2], bytes[3]]),
        punch_through: bytes[4] & 1 != 0,
    }
}

/// The four nearest words' samples of a colour, interpolated and widened to eight bits.
fn upscale(samples: [&Colour; 4], xr: u16, yr: u16) -> [u16; 4] {
    let weights = [(4 - xr) * (4 - yr), xr * (4 - yr), (4 - xr) * yr, xr * yr];
    let mut sums = [0; 4];
    for (sample, weight) in samples.iter().zip(weights) {
        for c in 0..4 {
            sums[c] += sample[c] * weight;
        }
    }
    let [r, g, b, a] = sums;
    [r / 2 + r / 64, g / 2 + g / 64, b / 2 + b / 64, a + a / 16]
}

/// The low word's index along an axis of `words` words, the next one's, and the offset from the low word's sample.
fn nearest(texel: usize, words: usize) -> (usize, usize, u16) {
    let moved = texel as isize - 2;
    let low = moved.div_euclid(4);
    let wrapped = |i: isize| i.rem_euclid(words as isize) as usize;
    (wrapped(low), wrapped(low + 1), (moved - 4 * low) as u16)
}

/// The refusal of an image call, 0 for none: 61, then 4, then 5.
pub fn refusal(width: u32, height: u32, bytes: usize, places: usize) -> u8 {
    let fits = |side: u32| side.is_power_of_two() && (4..=4096).contains(&side);
    if !fits(width) || !fits(height) {
        return 61;
    }
    let texels = width as usize * height as usize;
    if bytes != 8 * (texels / 16) {
        4
    } else if places != 4 * texels {
        5
    } else {
        0
    }
}

/// An image that is not refused. Each word is unpacked once.
pub fn decode_image(width: usize, height: usize, bytes: &[u8], out: &mut [u8]) {
    let (across, down) = (width / 4, height / 4);
    let mut words = Vec::with_capacity(across * down);
    for y in 0..down {
        for x in 0..across {
            words.push(unpack(&bytes[8 * word_offset(x, y, across, down)..][..8]));
        }
    }
    let columns: Vec<_> = (0..width).map(|x| nearest(x, across)).collect();
    for (y, row) in out.chunks_exact_mut(4 * width).enumerate() {
        let (top, bottom, yr) = nearest(y, down);
        let (top, bottom) = (&words[top * across..][..across], &words[bottom * across..][..across]);
        let own = &words[y / 4 * across..][..across];
        for ((x, texel), &(left, right, xr)) in row.chunks_exact_mut(4).enumerate().zip(&columns) {
            let four = [&top[left], &top[right], &bottom[left], &bottom[right]];
            let a = upscale(four.map(|w| &w.a), xr, yr);
            let b = upscale(four.map(|w| &w.b), xr, yr);
            let word = &own[x / 4];
            let bits = (word.modulation >> (2 * (4 * (y % 4) + x % 4)) & 3) as usize;
            let weight = if word.punch_through { [0, 4, 4, 8][bits] } else { [0, 3, 5, 8][bits] };
            for c in 0..4 {
                texel[c] = ((a[c] * (8 - weight) + b[c] * weight) / 8) as u8;
            }
            if word.punch_through && bits == 2 {
                texel[3] = 0;
            }
        }
    }
}

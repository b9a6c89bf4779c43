//! Pictures of PVRTC1 words and what Godot's decompressor shows of them. pvrtc/README.md tells what is compared.

/// An image call: width, height, words, bytes; answers the refusal.
pub type Call<'a> = dyn Fn(u32, u32, &[u8], &mut [u8]) -> u8 + 'a;

/// The stored pictures: sort, width, height, words, bytes R, G, B, A.
pub const STORED: &[u8] = include_bytes!("../pvrtc/pictures.bin");

/// A stored picture.
pub struct Picture<'a> {
    /// 1 where all channels count; 0 where blue does not.
    pub sort: u8,
    pub width: u16,
    pub height: u16,
    pub words: &'a [u8],
    pub shown: &'a [u8],
}

/// The pictures of a file.
pub fn pictures(mut rest: &[u8]) -> Vec<Picture<'_>> {
    let mut all = Vec::new();
    while let [sort, w0, w1, h0, h1, tail @ ..] = rest {
        let (width, height) = (u16::from_le_bytes([*w0, *w1]), u16::from_le_bytes([*h0, *h1]));
        let texels = width as usize * height as usize;
        let (words, tail) = tail.split_at(texels / 2);
        let (shown, tail) = tail.split_at(4 * texels);
        rest = tail;
        all.push(Picture { sort: *sort, width, height, words, shown });
    }
    all
}

/// What a check found.
#[derive(Default, Debug)]
pub struct Outcome {
    /// Pictures of each sort that agree.
    pub passed: [u64; 2],
    /// Those that don't, described.
    pub failed: Vec<String>,
}

/// Compares a decoder with stored pictures.
pub fn check(decode: &Call, stored: &[u8]) -> Outcome {
    let mut outcome = Outcome::default();
    for Picture { sort, width, height, words, shown } in pictures(stored) {
        let mut out = vec![0; shown.len()];
        let answer = decode(width as u32, height as u32, words, &mut out);
        let compared = |place: usize| sort == 1 || place % 4 != 2;
        let differ = (0..out.len()).find(|&k| compared(k) && out[k] != shown[k]);
        match (answer, differ) {
            (0, None) => outcome.passed[sort as usize] += 1,
            (0, Some(k)) => outcome.failed.push(format!(
                "sort {sort}, {width} by {height}: texel {}, {}, channel {}: {} shown, {} decoded",
                k / 4 % width as usize,
                k / 4 / width as usize,
                k % 4,
                shown[k],
                out[k]
            )),
            (number, _) => outcome.failed.push(format!("{width} by {height}: refused by {number}")),
        }
    }
    outcome
}

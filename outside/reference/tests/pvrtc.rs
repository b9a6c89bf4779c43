//! PVRTC1: 002's example, 02's numbers and worked words.

use reference::pvrtc::{decode_image, refusal, word_offset};

#[test]
fn word_order() {
    assert_eq!(word_offset(13, 2, 16, 4), 54);
    for (across, down) in [(1, 1), (1, 16), (16, 1), (4, 4), (16, 4), (4, 64), (128, 32)] {
        let mut places: Vec<usize> =
            (0..across * down).map(|n| word_offset(n % across, n / across, across, down)).collect();
        places.sort_unstable();
        assert!(places.into_iter().eq(0..across * down), "{across} by {down}");
    }
}

#[test]
fn refusals() {
    assert_eq!(refusal(4, 4, 8, 64), 0);
    assert_eq!(refusal(4096, 4096, 8 << 20, 64 << 20), 0);
    for side in [0, 1, 2, 3, 5, 6, 12, 4095, 8192, u32::MAX] {
        assert_eq!(refusal(side, 4, 7, 63), 61);
        assert_eq!(refusal(4, side, 7, 63), 61);
    }
    assert_eq!(refusal(4, 4, 7, 63), 4);
    assert_eq!(refusal(4, 4, 8, 63), 5);
}

/// The first texel of an image of one word.
fn first(word: u64) -> [u8; 4] {
    let mut out = [0; 64];
    decode_image(4, 4, &word.to_le_bytes(), &mut out);
    [out[0], out[1], out[2], out[3]]
}

#[test]
fn words() {
    let grey = |flag: u64, modulation: u64| first(0xFFFF_8000 << 32 | flag << 32 | modulation);
    assert_eq!([0, 1, 2, 3].map(|m| grey(0, m)[0]), [0, 95, 159, 255]);
    assert_eq!([0, 1, 2, 3].map(|m| grey(1, m)[0]), [0, 127, 127, 255]);
    assert_eq!([0, 1, 2, 3].map(|m| grey(1, m)[3]), [255, 255, 0, 255]);
    // a translucent colour A: alpha 7, red 15, green 8, blue 5
    assert_eq!(first(7 << 44 | 15 << 40 | 8 << 36 | 5 << 33), [255, 140, 181, 238]);
    // and colour B
    assert_eq!(first(7 << 60 | 15 << 56 | 8 << 52 | 5 << 48 | 3), [255, 140, 82, 238]);
}

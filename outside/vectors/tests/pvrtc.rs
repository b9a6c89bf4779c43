//! The reference agrees with the stored pictures.

use reference::pvrtc::{decode_image, refusal};
use vectors::pvrtc::{STORED, check};

#[test]
fn reference_agrees() {
    let decode = |width: u32, height: u32, words: &[u8], out: &mut [u8]| {
        let refused = refusal(width, height, words.len(), out.len());
        if refused == 0 {
            decode_image(width as usize, height as usize, words, out);
        }
        refused
    };
    let outcome = check(&decode, STORED);
    println!("passed {:?}", outcome.passed);
    assert!(outcome.failed.is_empty(), "{} failed, first {:?}", outcome.failed.len(), outcome.failed.first());
    assert!(outcome.passed.iter().all(|&n| n > 0));
}

//! Checks the reference against vectors in a directory: check DIRECTORY [volume_]

use vectors::{Decoder, Files, check};

fn main() {
    let directory = std::env::args().nth(1).expect("check DIRECTORY [volume_]");
    let which = std::env::args().nth(2).unwrap_or_default();
    let file = |name: &str| std::fs::read(format!("{directory}/{which}{name}.bin")).unwrap();
    let (texels, digests, illegal, hdr) = (file("texels"), file("digests"), file("illegal"), file("hdr"));
    let (float16, float16_digests) = (file("float16"), file("float16_digests"));
    let files = Files {
        texels: &texels,
        digests: &digests,
        illegal: &illegal,
        hdr: &hdr,
        float16: &float16,
        float16_digests: &float16_digests,
    };
    let decoder =
        Decoder { unorm16: &reference::decode_u16, srgb8: &reference::decode_u8, float16: &reference::decode_f16 };
    let outcome = check(&decoder, &files);
    for line in outcome.failed.iter().take(10) {
        println!("{line}");
    }
    let [texels, digests, illegal, hdr, float16, float16_digests] = outcome.passed;
    println!("texels {texels}, digests {digests}, illegal {illegal}, HDR {hdr}");
    println!("HDR in kind 2: texels {float16}, digests {float16_digests}");
    println!("{} passed, {} failed", outcome.passed.iter().sum::<u64>(), outcome.failed.len());
    std::process::exit(!outcome.failed.is_empty() as i32);
}

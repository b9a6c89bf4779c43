//! The reference agrees with the captions of astcenc's greys.

use vectors::caption::stored;

#[test]
fn reference_agrees() {
    let mut count = 0;
    for caption in stored() {
        let [e0, e1] = *caption.ends;
        assert_eq!(reference::caption::block(e0, e1, caption.wanted), *caption.block, "{:?}", caption.wanted);
        let mut texels = [0; 64];
        assert_eq!(reference::decode_u8(0, caption.block, &mut texels), 0);
        assert_eq!(texels, *caption.texels);
        count += 1;
    }
    assert!(count > 1000);
}

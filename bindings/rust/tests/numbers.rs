//! The types' numbers, sides and words against what the library answers; and the calls on several threads.

use stallbrook::{
    Error, Fault, Footprint, Kind, NUMBERS, Refusal, SymbolicBlock, UnknownNumber, file, raw, read_symbolic,
    view::View, volume_blocks, volume_numbers, write_symbolic,
};

#[test]
fn numbers_and_back() {
    for number in 0..=255 {
        let footprint = Footprint::try_from(number);
        assert_eq!(footprint.map(u8::from), if number < 24 { Ok(number) } else { Err(Refusal::Footprint) });
        assert_eq!(Kind::try_from(number).map(u8::from), if number < 3 { Ok(number) } else { Err(Refusal::Kind) });
        assert!(
            Fault::try_from(number).is_ok_and(|fault| fault.number() == number)
                || Fault::try_from(number) == Err(UnknownNumber(number))
        );
        match Refusal::try_from(number) {
            Ok(refusal) => assert_eq!(refusal.number(), number),
            Err(unknown) => assert_eq!(unknown, UnknownNumber(number)),
        }
    }
    assert_eq!((Footprint::ALL.len(), Kind::ALL.len()), (24, 3));
}

/// Every number that has a sentence of its own is a fault or a refusal, and the other way round.
#[test]
fn words() {
    let unknown = UnknownNumber(255).to_string();
    assert_eq!(unknown, "255 is no number of this sort");
    let none = "a number that no call answers";
    let mut seen = std::collections::HashSet::new();
    for number in 1..=255 {
        let Ok(refusal) = Refusal::try_from(number) else { continue };
        assert_ne!(refusal.to_string(), none, "{number}");
        assert!(seen.insert(refusal.to_string()), "{number} has another's words");
        assert_eq!(Error::from(refusal).to_string(), format!("refused ({number}): {refusal}"));
        if let Ok(fault) = Fault::try_from(number) {
            assert_eq!(fault.to_string(), refusal.to_string());
            assert_eq!(Error::from(fault).to_string(), format!("faulty block ({number}): {fault}"));
        }
    }
}

#[test]
fn sides_are_the_librarys() {
    for &footprint in Footprint::ALL {
        let [width, height, depth] = [footprint.width(), footprint.height(), footprint.depth()];
        assert_eq!(footprint.is_volume(), footprint.number() > 13);
        if footprint.is_volume() {
            assert_eq!(file::write_header(footprint, 1, 1), Err(Refusal::Footprint));
            assert_eq!(View::new(&[0; 16], footprint, 1, 1), Err(Refusal::Footprint));
        } else {
            let header = file::write_header(footprint, 1, 1).unwrap();
            assert_eq!([header[4], header[5], header[6]].map(u32::from), [width, height, depth]);
            assert_eq!(Footprint::of_sides(width, height), Some(footprint));
        }
        assert_eq!(Footprint::of_three_sides(width, height, depth), Some(footprint));
        // one block on each axis, and with one texel more two
        assert_eq!(volume_blocks(footprint, width, height, depth), Some(1));
        assert_eq!(volume_blocks(footprint, width + 1, height, depth), Some(2));
        assert_eq!(volume_blocks(footprint, width, height + 1, depth), Some(2));
        assert_eq!(volume_blocks(footprint, width, height, depth + 1), Some(2));
        let texels = vec![0; footprint.numbers()];
        assert_eq!(texels.len() as u32, 4 * width * height * depth);
        assert_eq!(volume_numbers(width, height, depth), Some(texels.len()));
        assert_eq!(raw::decode_block_unorm16(footprint.number(), &[0; 16], &mut texels.clone()), 11);
        assert_eq!(raw::decode_block_unorm16(footprint.number(), &[0; 16], &mut texels[1..].to_vec()), 5);
    }
}

#[test]
fn several_threads() {
    let mut seed = 1u32;
    let blocks: Vec<u8> = std::iter::repeat_with(|| {
        seed = seed.wrapping_mul(1664525).wrapping_add(1013904223);
        (seed >> 24) as u8
    })
    .take(16 * 16 * 16)
    .collect();
    let seen = |blocks: &[u8]| {
        let view = View::new(blocks, Footprint::F4x4, 64, 64).unwrap();
        (view.to_unorm16(), view.to_srgb8(), view.to_float16(), view.srgb8(63, 63))
    };
    let alone = seen(&blocks);
    std::thread::scope(|scope| {
        for _ in 0..8 {
            scope.spawn(|| (0..20).for_each(|_| assert!(seen(&blocks) == alone)));
        }
    });
}

/// Every number of the flat form has its own place, and a volume's void extent its six extents.
#[test]
fn symbolic_blocks() {
    let numbers: [u16; NUMBERS] = std::array::from_fn(|i| i as u16);
    let block = SymbolicBlock::from_numbers(&numbers);
    assert_eq!((block.extents, block.depth, block.hdr), ([5, 6, 7, 8, 105, 106], 104, 103));
    assert_eq!(block.to_numbers(), numbers);
    let solid = SymbolicBlock { mark: 1, extents: [0, 1, 2, 3, 4, 511], ..SymbolicBlock::default() };
    let written = write_symbolic(Footprint::F5x5x5, &solid).unwrap();
    assert_eq!(read_symbolic(Footprint::F5x5x5, &written), Ok(solid.clone()));
    assert_eq!(write_symbolic(Footprint::F5x5, &solid), Err(Refusal::Field));
}

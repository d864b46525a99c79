// Torn blocks through the boundary: each place of a tear, the refusals and their order, names that come twice, and what the report says.
use tirlwheel::{mend, Mended, Report};

fn block(value: u32, address: u8) -> [u8; 16] {
    let mut bytes = [0; 16];
    for (i, byte) in value.to_le_bytes().into_iter().enumerate() {
        (bytes[i], bytes[4 + i], bytes[8 + i]) = (byte, !byte, byte);
    }
    bytes[12..].copy_from_slice(&[address, !address, address, !address]);
    bytes
}

fn card(size: usize, held: &[(usize, [u8; 16])]) -> Vec<u8> {
    let mut image = vec![0; size];
    for (b, bytes) in held {
        image[16 * b..16 * b + 16].copy_from_slice(bytes);
    }
    image
}

fn told(number: u8, changed: u16) -> Mended {
    Mended { number, changed }
}

// Any one byte of a block may be wrong, and wrong in any way: the block before the tear comes back, and that byte is told.
#[test]
fn one_torn_byte_is_mended() {
    let sound = card(1024, &[(4, block(0xFEDC_BA98, 0x5A))]);
    for i in 0..16 {
        for byte in 0..=255 {
            let mut image = sound.clone();
            image[64 + i] = byte;
            let torn = image != sound;
            let (number, report) = mend(&mut image, &[4]);
            assert_eq!((number, report.at(0)), (0, told(0, (torn as u16) << i)));
            assert_eq!(image, sound);
        }
    }
}

// The readings are whole numbers: no majority is found byte by byte.
#[test]
fn three_readings_that_differ_are_19() {
    let torn = [
        1, 0, 0, 0, 0xFF, 0xFE, 0xFF, 0xFF, 0, 0, 1, 0, 4, 0xFB, 4, 0xFB,
    ];
    for held in [torn, [0; 16], [0xFF; 16]] {
        let mut image = card(1024, &[(5, held), (6, block(7, 6))]);
        image[16 * 6] ^= 1;
        let before = image.clone();
        let (number, report) = mend(&mut image, &[5, 6]);
        assert_eq!(
            (number, report.at(0), report.at(1)),
            (0, told(19, 0), told(0, 1))
        );
        assert_eq!(image[..96], before[..96]);
        assert_eq!(image[96..112], block(7, 6));
        assert_eq!(image[112..], before[112..]);
    }
}

// Two address readings against two are a tie, and so are two of a kind and two others.
#[test]
fn an_address_needs_three() {
    let sound = block(3, 9);
    for (a, b) in [(12, 13), (12, 14), (12, 15), (13, 14), (13, 15), (14, 15)] {
        for bits in [1, 2] {
            let mut held = sound;
            held[a] ^= 1;
            held[b] ^= bits;
            let mut image = card(1024, &[(4, held)]);
            assert_eq!(mend(&mut image, &[4]).1.at(0), told(19, 0));
            assert_eq!(image[64..80], held);
        }
    }
}

// A name that comes twice finds the block sound; a refused one does not end the call.
#[test]
fn the_names_in_their_order() {
    let mut held = block(1000, 4);
    held[5] ^= 0xFF;
    held[6] ^= 0xFF;
    held[14] ^= 0x10;
    let mut image = card(4096, &[(4, held), (200, block(5, 5))]);
    let (number, report) = mend(&mut image, &[0, 3, 143, 255, 4, 4, 200]);
    assert_eq!(number, 0);
    for place in 0..4 {
        assert_eq!(report.at(place), told(6, 0));
    }
    assert_eq!(report.at(4), told(0, 0x4060));
    assert_eq!((report.at(5), report.at(6)), (told(0, 0), told(0, 0)));
    assert!(report.0[21..].iter().all(|byte| *byte == 0));
    assert_eq!(
        image,
        card(4096, &[(4, block(1000, 4)), (200, block(5, 5))])
    );
}

// 2 comes before 6: block 127 of a small card is a trailer that it lacks.
#[test]
fn blocks_that_are_not_there() {
    let mut image = card(1024, &[]);
    let (number, report) = mend(&mut image, &[64, 127, 255, 63]);
    assert_eq!(number, 0);
    assert_eq!(
        [0, 1, 2, 3].map(|place| report.at(place).number),
        [2, 2, 2, 6]
    );
}

// 11 comes before 30, and a call that is refused changes nothing and tells nothing.
#[test]
fn refused_calls() {
    let mut held = block(1, 4);
    held[0] ^= 1;
    let names = [4; 257];
    for (size, count, number) in [
        (1024, 257, 30),
        (1023, 257, 11),
        (1025, 1, 11),
        (0, 0, 11),
        (4096, 257, 30),
    ] {
        let mut image = card(4096, &[(4, held)]);
        image.truncate(size);
        let before = image.clone();
        assert_eq!(
            mend(&mut image, &names[..count]),
            (number, Report([0; 768]))
        );
        assert_eq!(image, before);
    }
    let mut image = card(1024, &[(4, held)]);
    assert_eq!(mend(&mut image, &[]), (0, Report([0; 768])));
    let (number, report) = mend(&mut image, &names[..256]);
    assert_eq!(
        (number, report.at(0), report.at(255)),
        (0, told(0, 1), told(0, 0))
    );
}

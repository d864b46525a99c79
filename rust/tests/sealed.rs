// Frames with their checksum through the boundary: a ride, a wrong checksum, frames that are too short, a Read's reply.
use tirlwheel::{SealedAnswer, Session, Sign};

const TRAILER: [u8; 16] = [
    255, 255, 255, 255, 255, 255, 0xFF, 0x07, 0x80, 0x69, 255, 255, 255, 255, 255, 255,
];
const KEY_A: [u8; 8] = [0x60, 4, 255, 255, 255, 255, 255, 255];
const VALUE_100: [u8; 16] = [
    100, 0, 0, 0, 155, 255, 255, 255, 100, 0, 0, 0, 4, 251, 4, 251,
];
const VALUE_99: [u8; 16] = [99, 0, 0, 0, 156, 255, 255, 255, 99, 0, 0, 0, 4, 251, 4, 251];

// Transport trailers, and the value 100 in block 4.
fn card() -> [u8; 1024] {
    let mut image = [0; 1024];
    for sector in 0..16 {
        image[64 * sector + 48..64 * sector + 64].copy_from_slice(&TRAILER);
    }
    image[64..80].copy_from_slice(&VALUE_100);
    image
}

// CRC_A bit by bit, as ISO/IEC 14443-3 says it: the library's own is not asked.
fn checksum(bytes: &[u8]) -> [u8; 2] {
    let mut register = 0x6363u16;
    for bit in bytes
        .iter()
        .flat_map(|byte| (0..8).map(move |at| u16::from(byte >> at & 1)))
    {
        let out = register & 1 ^ bit;
        register = register >> 1 ^ out * 0x8408;
    }
    register.to_le_bytes()
}

fn sealed(bytes: &[u8]) -> Vec<u8> {
    [bytes, &checksum(bytes)].concat()
}

fn said(number: u8, sign: Sign) -> SealedAnswer {
    SealedAnswer {
        number,
        sign,
        reply: [0; 18],
    }
}

fn authenticated() -> ([u8; 1024], Session) {
    let (mut image, mut session) = (card(), Session::FRESH);
    let answer = session.sealed_frame(&mut image, &sealed(&KEY_A));
    assert_eq!(answer, said(0, Sign::Ack));
    assert_eq!(session, Session([1, 1, 0, 0, 0, 0, 0, 0, 0, 0, 0, 0]));
    (image, session)
}

#[test]
fn the_checksum_of_the_test_is_the_standards() {
    assert_eq!(checksum(&[0x00, 0x00]), [0xA0, 0x1E]);
    assert_eq!(checksum(&[0x12, 0x34]), [0x26, 0xCF]);
}

#[test]
fn a_sealed_ride() {
    let (mut image, mut session) = authenticated();
    let mut send = |bytes: &[u8]| session.sealed_frame(&mut image, &sealed(bytes));
    assert_eq!(send(&[0xC0, 4]), said(0, Sign::Ack));
    assert_eq!(send(&[1, 0, 0, 0]), said(0, Sign::Nothing));
    assert_eq!(send(&[0xB0, 4]), said(0, Sign::Ack));
    let read = SealedAnswer {
        number: 0,
        sign: Sign::Data,
        reply: sealed(&VALUE_99).try_into().unwrap(),
    };
    assert_eq!(send(&[0x30, 4]), read);
    assert_eq!(send(&[0x50, 0x00]), said(0, Sign::Nothing));
    assert_eq!(session, Session::FRESH);
    assert_eq!(image[64..80], VALUE_99);
}

// One bit, the order, one byte or all of a checksum wrong: 14 is heard, a Halt's too, and the session is gone.
#[test]
fn a_wrong_checksum_is_14() {
    for bytes in [&[0x30, 4][..], &[0x50, 0x00], &[0xC0, 4], &KEY_A] {
        let right = sealed(bytes);
        let flipped = (0..8 * right.len()).map(|bit| flipped(&right, bit));
        let [low, high] = checksum(bytes);
        let others = [
            [bytes, &[high, low]].concat(),
            [bytes, &[low]].concat(),
            bytes.to_vec(),
        ];
        flipped.chain(others).for_each(|frame| refused_14(&frame));
    }
}

fn flipped(frame: &[u8], bit: usize) -> Vec<u8> {
    let mut frame = frame.to_vec();
    frame[bit / 8] ^= 1 << (bit % 8);
    frame
}

fn refused_14(frame: &[u8]) {
    let (mut image, mut session) = authenticated();
    let answer = session.sealed_frame(&mut image, frame);
    assert_eq!(answer, said(14, Sign::Nak), "{frame:02X?}");
    assert_eq!(session, Session::FRESH);
    assert_eq!(image, card());
}

// `63 63` is the checksum of nothing: right, but there is no frame before it.
#[test]
fn fewer_than_three_bytes_are_14() {
    for frame in [&[][..], &[0x63], &[0x63, 0x63], &[0x50, 0x00]] {
        refused_14(frame);
    }
    assert_eq!(checksum(&[]), [0x63, 0x63]);
}

// One byte with its checksum is a frame, and no command.
#[test]
fn lengths_are_judged_without_the_checksum() {
    let (mut image, mut session) = authenticated();
    let answer = session.sealed_frame(&mut image, &sealed(&[0x30]));
    assert_eq!(answer, said(1, Sign::Nothing));
}

// 11 and 12 come before 14.
#[test]
fn without_a_card_or_a_session_no_checksum_is_looked_at() {
    for (length, bytes, number) in [
        (1023, [0; 12], 11),
        (1024, [9; 12], 12),
        (1023, [9; 12], 11),
    ] {
        for frame in [sealed(&[0x30, 4]), vec![0x30, 4], vec![]] {
            let (mut image, mut session) = (vec![0; length], Session(bytes));
            let answer = session.sealed_frame(&mut image, &frame);
            assert_eq!(answer, said(number, Sign::Nothing));
            assert_eq!(session, Session::FRESH);
            assert_eq!(image, vec![0; length]);
        }
    }
}

// The record of a session is the same for both entries.
#[test]
fn bare_and_sealed_frames_take_turns() {
    let (mut image, mut session) = authenticated();
    assert_eq!(session.frame(&mut image, &[0xC0, 4]).number, 0);
    let operand = session.sealed_frame(&mut image, &sealed(&[1, 0, 0, 0]));
    assert_eq!(operand, said(0, Sign::Nothing));
    assert_eq!(session.frame(&mut image, &[0xB0, 4]).number, 0);
    assert_eq!(image[64..80], VALUE_99);
}

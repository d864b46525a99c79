// The card through the boundary: a ride, the retry, the record of a session, the player.
use tirlwheel::{play, version, Answer, Session, Sign};

const TRAILER: [u8; 16] = [
    255, 255, 255, 255, 255, 255, 0xFF, 0x07, 0x80, 0x69, 255, 255, 255, 255, 255, 255,
];
const DECREMENT_4: [u8; 2] = [0xC0, 4];
const ONE: [u8; 4] = [1, 0, 0, 0];
const TRANSFER_4: [u8; 2] = [0xB0, 4];
const READ_4: [u8; 2] = [0x30, 4];

fn value_block(value: i32, address: u8) -> [u8; 16] {
    let (v, n) = (value.to_le_bytes(), (!value).to_le_bytes());
    let mut block = [0; 16];
    for i in 0..4 {
        (block[i], block[4 + i], block[8 + i]) = (v[i], n[i], v[i]);
        block[12 + i] = if i % 2 == 0 { address } else { !address };
    }
    block
}

// Transport trailers, and the value 100 in block 4.
fn card() -> [u8; 1024] {
    let mut image = [0; 1024];
    for sector in 0..16 {
        image[64 * sector + 48..64 * sector + 64].copy_from_slice(&TRAILER);
    }
    image[64..80].copy_from_slice(&value_block(100, 4));
    image
}

fn key_a(key: u8) -> [u8; 8] {
    [0x60, 4, key, key, key, key, key, key]
}

fn said(number: u8, sign: Sign) -> Answer {
    Answer {
        number,
        sign,
        reply: [0; 16],
    }
}

#[test]
fn a_ride() {
    let (mut image, mut session) = (card(), Session::FRESH);
    assert_eq!(session.frame(&mut image, &key_a(0xFF)), said(0, Sign::Ack));
    assert_eq!(session, Session([1, 1, 0, 0, 0, 0, 0, 0, 0, 0, 0, 0]));
    assert_eq!(session.frame(&mut image, &DECREMENT_4), said(0, Sign::Ack));
    assert_eq!(session, Session([1, 1, 3, 4, 0, 0, 0, 0, 0, 0, 0, 0]));
    assert_eq!(session.frame(&mut image, &ONE), said(0, Sign::Nothing));
    assert_eq!(session, Session([1, 1, 0, 0, 1, 4, 0, 0, 99, 0, 0, 0]));
    assert_eq!(image, card());
    assert_eq!(session.frame(&mut image, &TRANSFER_4), said(0, Sign::Ack));
    assert_eq!(image[64..80], value_block(99, 4));
    let read = Answer {
        number: 0,
        sign: Sign::Data,
        reply: value_block(99, 4),
    };
    assert_eq!(session.frame(&mut image, &READ_4), read);
}

#[test]
fn a_refused_authentication_ends_everything() {
    let (mut image, mut session) = (card(), Session::FRESH);
    session.frame(&mut image, &key_a(0xFF));
    session.frame(&mut image, &DECREMENT_4);
    session.frame(&mut image, &ONE);
    assert_eq!(session.frame(&mut image, &key_a(0)), said(4, Sign::Nothing));
    assert_eq!(session, Session::FRESH);
    assert_eq!(session.frame(&mut image, &TRANSFER_4), said(3, Sign::Nak));
    assert_eq!(image, card());
}

#[test]
fn a_field_reset_is_always_accepted() {
    let mut session = Session([9; 12]);
    assert_eq!(session.field_reset(), said(0, Sign::Nothing));
    assert_eq!(session, Session::FRESH);
}

#[test]
fn an_image_of_another_length_is_refused() {
    for length in [0, 1023, 1025, 2048, 4095] {
        let mut image = vec![0; length];
        let mut session = Session([1, 1, 0, 0, 1, 4, 0, 0, 99, 0, 0, 0]);
        assert_eq!(session.frame(&mut image, &READ_4), said(11, Sign::Nothing));
        assert_eq!(session, Session::FRESH);
        assert_eq!(image, vec![0; length]);
    }
}

// The header's rule for the twelve bytes of a session.
fn is_record(b: [u8; 12]) -> bool {
    let quiet = |code: u8, rest: &[u8]| code != 0 || rest.iter().all(|&x| x == 0);
    b[0] <= 2
        && quiet(b[0], &b[1..2])
        && b[2] <= 4
        && quiet(b[2], &b[3..4])
        && b[4] <= 1
        && quiet(b[4], &[b[5], b[8], b[9], b[10], b[11]])
        && b[6..8] == [0, 0]
}

// Every change of one byte, and of a code with another byte: what is no record is 12; what is one, is written back as it was by a Read.
#[test]
fn twelve_bytes_are_read_or_refused() {
    let full = [2, 1, 0, 0, 1, 4, 0, 0, 99, 0, 0, 0];
    for base in [[0; 12], [1, 1, 0, 0, 0, 0, 0, 0, 0, 0, 0, 0], full] {
        for (i, j) in (0..12).flat_map(|i| (0..12).map(move |j| (i, j))) {
            for (x, y) in (0..=255).flat_map(|x| [0, 1, 7, 255].map(|y| (x, y))) {
                let mut bytes = base;
                bytes[i] = x;
                bytes[j] = y;
                one_record(bytes);
            }
        }
    }
}

fn one_record(bytes: [u8; 12]) {
    let (mut image, mut session) = (card(), Session(bytes));
    // two bytes are a Read for a session that awaits nothing, and 1 for any other
    let answer = session.frame(&mut image, &READ_4);
    let nobody = bytes[0] == 0 && (bytes[2] != 0 || bytes[4] != 0);
    let refused = !is_record(bytes) || nobody || (bytes[0] != 0 && bytes[1] >= 16);
    assert_eq!(answer.number == 12, refused, "{bytes:?}");
    assert_eq!(image, card());
    let expected = if answer.number == 0 {
        Session(bytes)
    } else {
        Session::FRESH
    };
    assert_eq!(session, expected, "{bytes:?}");
}

#[test]
fn the_sample_is_printed() {
    let script = include_bytes!("../../examples/ride.script");
    let mut buffer = Box::new([b'?'; 65536]);
    assert_eq!(
        play(script, &mut buffer),
        include_bytes!("../../crates/player/stdout")
    );
    assert!(buffer[include_bytes!("../../crates/player/stdout").len()..]
        .iter()
        .all(|&b| b == b'?'));
    assert_eq!(play(&[], &mut buffer), b"script 20\n");
}

#[test]
fn the_boundary_has_a_number() {
    assert_eq!(version(), 4);
}

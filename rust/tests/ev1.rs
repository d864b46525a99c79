// Cards with their record through the boundary: a ride on an EV1, Personalize UID Usage, the values of a NAK, records that are none.
use tirlwheel::{play_ev1, Answer, Card, CardAnswer, Choice, Edition, Nak, Session, Sign, Usage};

const TRAILER: [u8; 16] = [
    255, 255, 255, 255, 255, 255, 0xFF, 0x07, 0x80, 0x69, 255, 255, 255, 255, 255, 255,
];
const VALUE_100: [u8; 16] = [
    100, 0, 0, 0, 155, 255, 255, 255, 100, 0, 0, 0, 4, 251, 4, 251,
];
const VALUE_99: [u8; 16] = [99, 0, 0, 0, 156, 255, 255, 255, 99, 0, 0, 0, 4, 251, 4, 251];
const USAGES: [Usage; 4] = [Usage::Uidf0, Usage::Uidf1, Usage::Uidf2, Usage::Uidf3];
// Key A for sector 0, and a full register; then an empty one.
const WITH_A_VALUE: Session = Session([1, 0, 0, 0, 1, 4, 0, 0, 99, 0, 0, 0]);
const WITHOUT: Session = Session([1, 0, 0, 0, 0, 0, 0, 0, 0, 0, 0, 0]);

// Transport trailers, and the value 100 in block 4.
fn image() -> Vec<u8> {
    let mut image = vec![0; 4096];
    let trailers = (0..256).filter(|b| if *b < 128 { b % 4 == 3 } else { b % 16 == 15 });
    for block in trailers {
        image[16 * block..16 * block + 16].copy_from_slice(&TRAILER);
    }
    image[64..80].copy_from_slice(&VALUE_100);
    image
}

fn key_a(block: u8) -> [u8; 8] {
    [0x60, block, 255, 255, 255, 255, 255, 255]
}

fn said(number: u8, sign: Sign) -> CardAnswer {
    CardAnswer {
        number,
        sign,
        nak: None,
        reply: [0; 16],
    }
}

fn refused(number: u8, nak: Nak) -> CardAnswer {
    CardAnswer {
        nak: Some(nak),
        ..said(number, Sign::Nak)
    }
}

fn locked(usage: Usage) -> Card {
    Card {
        edition: Edition::Ev1,
        choice: Choice::Locked(usage),
    }
}

// CRC_A bit by bit, as ISO/IEC 14443-3 says it: the library's own is not asked.
fn sealed(bytes: &[u8]) -> Vec<u8> {
    let mut register = 0x6363u16;
    for bit in bytes
        .iter()
        .flat_map(|byte| (0..8).map(move |at| u16::from(byte >> at & 1)))
    {
        let out = register & 1 ^ bit;
        register = register >> 1 ^ out * 0x8408;
    }
    [bytes, &register.to_le_bytes()].concat()
}

#[test]
fn a_ride_on_an_ev1() {
    let (mut image, mut card, mut session) = (image(), Card::EV1, Session::FRESH);
    let mut send = |frame: &[u8]| session.card_frame(&mut image, &mut card, frame);
    assert_eq!(send(&key_a(0)), said(0, Sign::Ack));
    assert_eq!(send(&[0x40, 0x20]), said(0, Sign::Ack));
    assert_eq!(send(&key_a(4)), said(0, Sign::Ack));
    assert_eq!(send(&[0xC0, 4]), said(0, Sign::Ack));
    assert_eq!(send(&[1, 0, 0, 0]), said(0, Sign::Nothing));
    assert_eq!(send(&[0xB0, 4]), said(0, Sign::Ack));
    let read = CardAnswer {
        reply: VALUE_99,
        ..said(0, Sign::Data)
    };
    assert_eq!(send(&[0x30, 4]), read);
    assert_eq!(card, locked(Usage::Uidf2));
    assert_eq!(image[64..80], VALUE_99);
}

// Each type is locked once, whatever is asked for then; session and image stay as they are.
#[test]
fn a_choice_is_made_once() {
    for first in USAGES {
        for second in USAGES {
            let (mut image, mut card, mut session) = (image(), Card::EV1, WITH_A_VALUE);
            let answer = session.card_frame(&mut image, &mut card, &[0x40, first as u8]);
            assert_eq!(answer, said(0, Sign::Ack));
            assert_eq!((session, card), (WITH_A_VALUE, locked(first)));
            let answer = session.card_frame(&mut image, &mut card, &[0x40, second as u8]);
            assert_eq!(answer, refused(18, Nak::FullInvalidOperation));
            assert_eq!((session, card), (Session::FRESH, locked(first)));
            assert_eq!(image, self::image());
        }
    }
}

#[test]
fn a_reset_keeps_the_choice() {
    for bytes in [
        [0; 4],
        [1, 0, 0, 0],
        [1, 1, 0x60, 0],
        [0, 1, 0x40, 0],
        [7; 4],
    ] {
        let (mut card, mut session) = (bytes, Session([9; 12]));
        let answer = Answer {
            number: 0,
            sign: Sign::Nothing,
            reply: [0; 16],
        };
        assert_eq!(session.card_reset_bytes(&mut card), answer);
        assert_eq!((card, session), (bytes, Session::FRESH));
        if let Some(mut record) = Card::of_bytes(bytes) {
            assert_eq!(session.card_reset(&mut record), answer);
            assert_eq!(record.bytes(), bytes);
        }
    }
}

// 17 before 18, and 3 before both.
#[test]
fn forty_is_refused_in_order() {
    let elsewhere = Session([1, 1, 0, 0, 0, 0, 0, 0, 0, 0, 0, 0]);
    for (start, code, number) in [
        (WITHOUT, 0x41, 17),
        (WITHOUT, 0x40, 18),
        (elsewhere, 0x41, 3),
    ] {
        let (mut image, mut card, mut session) = (image(), locked(Usage::Uidf1), start);
        let answer = session.card_frame(&mut image, &mut card, &[0x40, code]);
        assert_eq!(answer, refused(number, Nak::EmptyInvalidOperation));
        assert_eq!((session, card), (Session::FRESH, locked(Usage::Uidf1)));
    }
}

// The register of the session that was handed in, though the refusal empties it.
#[test]
fn a_nak_tells_of_the_register() {
    for (start, operation, checksum) in [
        (
            WITH_A_VALUE,
            Nak::FullInvalidOperation,
            Nak::FullChecksumError,
        ),
        (WITHOUT, Nak::EmptyInvalidOperation, Nak::EmptyChecksumError),
    ] {
        let (mut image, mut card, mut session) = (image(), Card::EV1, start);
        let answer = session.card_frame(&mut image, &mut card, &[0x30, 8]);
        assert_eq!(answer, refused(3, operation));
        assert_eq!(session, Session::FRESH);
        let mut session = start;
        let answer = session.card_sealed_frame(&mut image, &mut card, &[0x30, 0, 0, 0]);
        assert_eq!((answer.number, answer.nak), (14, Some(checksum)));
        let mut session = start;
        let answer = session.card_sealed_frame(&mut image, &mut card, &sealed(&[0x30, 8]));
        assert_eq!((answer.number, answer.nak), (3, Some(operation)));
        let (mut card, mut session) = (Card::OLD, start);
        let answer = session.card_frame(&mut image, &mut card, &[0x30, 8]);
        assert_eq!(answer, said(3, Sign::Nak));
    }
}

// To an old card 40h is an unknown code, with a choice in its record too; the rest is what the short form gives.
#[test]
fn an_old_card_is_the_short_form() {
    let chosen = Card {
        edition: Edition::Old,
        choice: Choice::Locked(Usage::Uidf3),
    };
    for start in [Card::OLD, chosen] {
        let (mut image, mut card, mut session) = (image(), start, WITH_A_VALUE);
        let (mut plain_image, mut plain) = (image.clone(), WITH_A_VALUE);
        for frame in [
            &[0x30, 0][..],
            &[0x40, 0x20],
            &key_a(4),
            &[0x30, 4],
            &[0xB0, 4],
            &[0x30, 4],
        ] {
            let answer = session.card_frame(&mut image, &mut card, frame);
            let short = plain.frame(&mut plain_image, frame);
            assert_eq!((answer.number, answer.sign), (short.number, short.sign));
            assert_eq!((answer.reply, answer.nak), (short.reply, None));
            assert_eq!((session, card), (plain, start));
        }
        let mut session = WITHOUT;
        let answer = session.card_frame(&mut image, &mut card, &[0x40, 0x20]);
        assert_eq!(answer, said(1, Sign::Nothing));
    }
}

#[test]
fn an_ev1_has_one_size() {
    for length in [0, 1024, 4095, 4097] {
        let (mut image, mut card, mut session) = (vec![0; length], Card::EV1, Session([9; 12]));
        let answer = session.card_frame(&mut image, &mut card, &[0x30, 0]);
        assert_eq!(answer, said(11, Sign::Nothing));
        assert_eq!((session, card), (Session::FRESH, Card::EV1));
    }
}

// Every four bytes of these: what is no record is 11 before 12, and comes back as it was.
#[test]
fn four_bytes_are_a_record_or_no_card() {
    let some = [0, 1, 2, 0x20, 0x40, 0x60, 0x80, 0xFF];
    let all = some.map(|a| some.map(|b| some.map(|c| some.map(|d| [a, b, c, d]))));
    let mut records = 0;
    for bytes in all.as_flattened().as_flattened().as_flattened() {
        let (mut image, mut card, mut session) = (image(), *bytes, Session([9; 12]));
        let (result, reply) = session.card_frame_bytes(&mut image, &mut card, &[0x30, 0]);
        let record = Card::of_bytes(*bytes);
        assert_eq!(result, if record.is_some() { 0x30C } else { 0x30B });
        assert_eq!((card, session, reply), (*bytes, Session::FRESH, [0; 16]));
        let mut session = WITHOUT;
        let (result, reply) =
            session.card_sealed_frame_bytes(&mut image, &mut card, &sealed(&[0x30, 1]));
        assert_eq!(result, if record.is_some() { 0x200 } else { 0x30B });
        assert_eq!((card, reply[..16] == [0; 16]), (*bytes, true));
        assert_eq!(record.map(Card::bytes), record.map(|_| *bytes));
        records += usize::from(record.is_some());
    }
    assert_eq!(records, 2 * (1 + 4));
}

#[test]
fn an_ev1_script_is_printed() {
    let mut buffer = Box::new([b'?'; 65536]);
    let mut script = [&4096u16.to_le_bytes()[..], &image(), &[1, 0, 2, 0x30, 4, 0]].concat();
    assert_eq!(
        play_ev1(&script, &mut buffer),
        b"card 4096 events 1\n1 3 N4\n"
    );
    script.push(0);
    assert_eq!(play_ev1(&script, &mut buffer), b"script 24\n");
    *script.first_chunk_mut().unwrap() = 1024u16.to_le_bytes();
    assert_eq!(play_ev1(&script, &mut buffer), b"script 21\n");
}

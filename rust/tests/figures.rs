// The figures of a card through the boundary: an opening, a ride with them, their ranges, and what leaves them as they are.
use tirlwheel::{
    open, open_bytes, Answer, Card, CardAnswer, Choice, Edition, Figures, Nak, Session, Sign, Usage,
};

const TRAILER: [u8; 16] = [
    255, 255, 255, 255, 255, 255, 0xFF, 0x07, 0x80, 0x69, 255, 255, 255, 255, 255, 255,
];
// A trailer with transport bits that reads as a value block.
const VALUE_TRAILER: [u8; 16] = [
    0x80, 0, 0, 0xF8, 0x7F, 0xFF, 0xFF, 0x07, 0x80, 0, 0, 0xF8, 4, 251, 4, 251,
];
// Key A for sector 1, an awaited Write of block 4 or 5, and a register with 7.
const WRITING_4: Session = Session([1, 1, 1, 4, 1, 4, 0, 0, 7, 0, 0, 0]);
const WRITING_5: Session = Session([1, 1, 1, 5, 1, 4, 0, 0, 7, 0, 0, 0]);
const HOLDING: Session = Session([1, 1, 0, 0, 1, 4, 0, 0, 7, 0, 0, 0]);
const CARDS: [(Card, usize); 3] = [(Card::OLD, 1024), (Card::OLD, 4096), (Card::EV1, 4096)];

fn value(number: i32) -> [u8; 16] {
    let (bytes, inverse) = (number.to_le_bytes(), (!number).to_le_bytes());
    let block = [bytes, inverse, bytes, [4, 251, 4, 251]];
    block.as_flattened().try_into().unwrap()
}

fn is_trailer(block: usize) -> bool {
    if block < 128 {
        block % 4 == 3
    } else {
        block % 16 == 15
    }
}

fn store(image: &mut [u8], block: usize, bytes: [u8; 16]) {
    image[16 * block..16 * block + 16].copy_from_slice(&bytes);
}

// Transport trailers, and 100 in block 4.
fn image(bytes: usize) -> Vec<u8> {
    let mut image = vec![0; bytes];
    for block in (0..bytes / 16).filter(|block| is_trailer(*block)) {
        store(&mut image, block, TRAILER);
    }
    store(&mut image, 4, value(100));
    image
}

fn figures(count: i64, sum: i64) -> Figures {
    Figures { count, sum }
}

fn key_a(block: u8) -> [u8; 8] {
    [0x60, block, 255, 255, 255, 255, 255, 255]
}

fn said(number: u8, sign: Sign) -> CardAnswer {
    CardAnswer {
        number,
        sign,
        nak: None,
        reply: [0; 16],
    }
}

// CRC_A bit by bit, as ISO/IEC 14443-3 says it: the library's own is not asked.
fn sealed(bytes: &[u8]) -> Vec<u8> {
    let mut register = 0x6363u16;
    for bit in bytes
        .iter()
        .flat_map(|byte| (0..8).map(move |at| u16::from(byte >> at & 1)))
    {
        let out = register & 1 ^ bit;
        register = register >> 1 ^ out * 0x8408;
    }
    [bytes, &register.to_le_bytes()].concat()
}

// Sent bare and with its checksum; both have to do the same.
fn send(
    image: &mut [u8],
    card: &mut Card,
    kept: &mut Figures,
    session: &mut Session,
    frame: &[u8],
) -> CardAnswer {
    let (mut copy, mut other, mut others, mut twin) = (image.to_vec(), *card, *kept, *session);
    let answer = session.kept_frame(image, card, kept, frame);
    let with_seal = twin.kept_sealed_frame(&mut copy, &mut other, &mut others, &sealed(frame));
    assert_eq!(
        (&copy[..], other, others, twin),
        (&*image, *card, *kept, *session)
    );
    assert_eq!(
        (with_seal.number, with_seal.sign),
        (answer.number, answer.sign)
    );
    assert_eq!(
        (with_seal.nak, &with_seal.reply[..16]),
        (answer.nak, &answer.reply[..])
    );
    answer
}

#[test]
fn a_ride_with_figures() {
    for (start, bytes) in CARDS {
        let (mut image, mut card, mut session) = (image(bytes), start, Session::FRESH);
        let mut kept = open(&image, card).unwrap();
        assert_eq!(kept, figures(1, 100));
        let ride: [(&[u8], Sign, Figures); 9] = [
            (&key_a(4), Sign::Ack, figures(1, 100)),
            (&[0xC0, 4], Sign::Ack, figures(1, 100)),
            (&[1, 0, 0, 0], Sign::Nothing, figures(1, 100)),
            (&[0xB0, 4], Sign::Ack, figures(1, 99)),
            (&[0xB0, 5], Sign::Ack, figures(2, 198)),
            (&[0xA0, 5], Sign::Ack, figures(2, 198)),
            (&[0; 16], Sign::Ack, figures(1, 99)),
            (&[0xA0, 4], Sign::Ack, figures(1, 99)),
            (&value(-5), Sign::Ack, figures(1, -5)),
        ];
        for (frame, sign, after) in ride {
            let answer = send(&mut image, &mut card, &mut kept, &mut session, frame);
            assert_eq!((answer, kept), (said(0, sign), after));
            assert_eq!(open(&image, card), Ok(kept));
        }
    }
}

// Block 0 and the trailers do not count; every other block does, up to the ends of the values.
#[test]
fn an_opening_counts_every_data_block() {
    for (card, bytes) in CARDS {
        for number in [0, 1, -1, i32::MAX, i32::MIN] {
            let mut image = vec![0; bytes];
            let mut count = 0;
            for block in 0..bytes / 16 {
                assert_eq!(
                    open(&image, card),
                    Ok(figures(count, count * i64::from(number)))
                );
                store(&mut image, block, value(number));
                count += i64::from(block != 0 && !is_trailer(block));
            }
            assert_eq!(
                open(&image, card),
                Ok(figures(count, count * i64::from(number)))
            );
            assert_eq!(count, if bytes == 1024 { 47 } else { 215 });
            assert!(open(&image, card).unwrap().is_in_range());
        }
    }
}

#[test]
fn an_opening_is_refused_by_11_alone() {
    for length in [0, 16, 1023, 1025, 4095, 4097, 1024 + 65536] {
        assert_eq!(open_bytes(&vec![1; length], [0; 4]), (11, [0; 16]));
    }
    assert_eq!(open(&image(1024), Card::EV1), Err(11));
    let some = [0, 1, 2, 0x20, 0x40, 0x60, 0x80, 0xFF];
    let all = some.map(|a| some.map(|b| some.map(|c| some.map(|d| [a, b, c, d]))));
    let image = image(4096);
    for bytes in all.as_flattened().as_flattened().as_flattened() {
        let counted = match Card::of_bytes(*bytes) {
            Some(_) => (0, figures(1, 100).bytes()),
            None => (11, [0; 16]),
        };
        assert_eq!(open_bytes(&image, *bytes), counted);
    }
}

// One outside each end, and far outside: 29 first, whatever is sent, and everything stays as it was.
#[test]
fn figures_outside_are_29() {
    let (low, high) = (Figures::LOWEST, Figures::HIGHEST);
    assert_eq!((low, high), (-547_608_330_240, 547_608_329_985));
    let outside = [
        figures(-1, 0),
        figures(256, 0),
        figures(0, low - 1),
        figures(0, high + 1),
        figures(1 << 32, 0),
        figures(i64::MIN, i64::MIN),
        figures(i64::MAX, i64::MAX),
    ];
    for (start, bytes) in CARDS {
        for given in outside {
            assert!(!given.is_in_range());
            assert_eq!(Figures::of_bytes(given.bytes()), given);
            for frame in [
                &[0x50, 0][..],
                &[0x30, 4],
                &key_a(4),
                &[0xB0, 5],
                &[0x43],
                &[],
            ] {
                let (mut image, mut card, mut session, mut kept) =
                    (image(bytes), start, HOLDING, given);
                let answer = session.kept_frame(&mut image, &mut card, &mut kept, frame);
                assert_eq!(answer, said(29, Sign::Nothing));
                assert_eq!((session, card, kept), (Session::FRESH, start, given));
                assert_eq!(image, self::image(bytes));
                // Before 14, with a right checksum and with a wrong one.
                for frame in [sealed(frame), [frame, &[0, 0]].concat()] {
                    let mut session = HOLDING;
                    let answer =
                        session.kept_sealed_frame(&mut image, &mut card, &mut kept, &frame);
                    assert_eq!((answer.number, answer.sign), (29, Sign::Nothing));
                    assert_eq!((answer.nak, answer.reply), (None, [0; 18]));
                    assert_eq!((session, kept), (Session::FRESH, given));
                }
            }
        }
    }
}

// 11 and 12 come first, for bytes that are no record as well; then the figures come back as they were.
#[test]
fn before_29() {
    let given = [0xEE; 16];
    let incoherent = Session([0, 0, 0, 0, 1, 4, 0, 0, 7, 0, 0, 0]);
    for (length, card, session, number) in [
        (1024, [2, 0, 0, 0], Session([9; 12]), 11),
        (1023, [0; 4], Session([9; 12]), 11),
        (1024, [1, 0, 0, 0], HOLDING, 11),
        (1024, [0; 4], Session([9; 12]), 12),
        (4096, [1, 0, 0, 0], incoherent, 12),
        (4096, [1, 0, 0, 0], HOLDING, 29),
    ] {
        let (mut image, mut record, mut kept, mut after) = (vec![0; length], card, given, session);
        let answer = after.kept_frame_bytes(&mut image, &mut record, &mut kept, &[0x30, 4]);
        assert_eq!(answer, (0x300 | number, [0; 16]));
        assert_eq!((record, kept, after), (card, given, Session::FRESH));
        let mut after = session;
        let answer = after.kept_sealed_frame_bytes(&mut image, &mut record, &mut kept, &[0; 4]);
        assert_eq!(answer, (0x300 | number, [0; 18]));
        assert_eq!((record, kept, after), (card, given, Session::FRESH));
    }
}

// Figures that did not come from an opening: the old share goes off and the new one on, and only what comes of both is judged.
#[test]
fn only_the_new_figures_are_judged() {
    let (low, high) = (Figures::LOWEST, Figures::HIGHEST);
    // Block 4 holds 100, block 5 none; the register holds 7.
    let cases: [(Session, &[u8], Figures, Option<Figures>); 14] = [
        (WRITING_4, &value(70), figures(0, 0), Some(figures(0, -30))),
        (
            WRITING_4,
            &value(70),
            figures(255, low + 30),
            Some(figures(255, low)),
        ),
        (WRITING_4, &value(70), figures(255, low + 29), None),
        (
            WRITING_4,
            &value(130),
            figures(0, high - 30),
            Some(figures(0, high)),
        ),
        (WRITING_4, &value(130), figures(0, high - 29), None),
        (
            WRITING_4,
            &value(100),
            figures(0, low),
            Some(figures(0, low)),
        ),
        (WRITING_4, &[0; 16], figures(1, 0), Some(figures(0, -100))),
        (WRITING_4, &[0; 16], figures(0, 0), None),
        (WRITING_4, &[0; 16], figures(9, low + 99), None),
        (
            WRITING_5,
            &value(-1),
            figures(254, low + 1),
            Some(figures(255, low)),
        ),
        (WRITING_5, &value(-1), figures(255, 0), None),
        (
            WRITING_5,
            &[1; 16],
            figures(255, high),
            Some(figures(255, high)),
        ),
        (
            HOLDING,
            &[0xB0, 5],
            figures(254, high - 7),
            Some(figures(255, high)),
        ),
        (HOLDING, &[0xB0, 4], figures(0, low + 92), None),
    ];
    for (start, bytes) in CARDS {
        for (before, frame, given, settled) in cases {
            let (mut image, mut card, mut session, mut kept) = (image(bytes), start, before, given);
            let answer = send(&mut image, &mut card, &mut kept, &mut session, frame);
            match settled {
                Some(settled) => {
                    assert_eq!((answer, kept), (said(0, Sign::Ack), settled));
                    let mut plain = self::image(bytes);
                    let mut twin = before;
                    assert_eq!(twin.card_frame(&mut plain, &mut card, frame), answer);
                    assert_eq!((twin, plain), (session, image));
                }
                None => {
                    assert_eq!((answer, kept), (said(29, Sign::Nothing), given));
                    assert_eq!((session, image), (Session::FRESH, self::image(bytes)));
                }
            }
        }
    }
}

// A trailer leaves the figures, whatever it reads as before and after.
#[test]
fn a_trailer_does_not_count() {
    for given in [
        figures(0, 0),
        figures(1, 100),
        figures(255, Figures::HIGHEST),
    ] {
        let (mut image, mut card, mut kept) = (image(1024), Card::OLD, given);
        for data in [VALUE_TRAILER, TRAILER] {
            let mut session = Session([1, 1, 1, 7, 0, 0, 0, 0, 0, 0, 0, 0]);
            let answer = send(&mut image, &mut card, &mut kept, &mut session, &data);
            assert_eq!((answer, kept), (said(0, Sign::Ack), given));
            assert_eq!(image[112..128], data);
            assert_eq!(open(&image, card), Ok(figures(1, 100)));
        }
    }
}

// Every other frame and every refusal gives them back as they came; a NAK of an EV1 has its value.
#[test]
fn other_frames_leave_the_figures() {
    for given in [figures(0, Figures::LOWEST), figures(255, 3)] {
        for (frame, number) in [
            (&[0x30, 4][..], 0),
            (&[0x50, 0], 0),
            (&[0xA0, 4], 0),
            (&[0x30, 8], 3),
            (&[0xC0, 5], 8),
            (&[0x43, 0], 1),
            (&[], 1),
        ] {
            let (mut image, mut card, mut session, mut kept) =
                (image(4096), Card::EV1, HOLDING, given);
            let answer = session.kept_frame(&mut image, &mut card, &mut kept, frame);
            let is_nak = matches!(number, 3 | 8);
            assert_eq!((answer.number, kept), (number, given));
            assert_eq!(answer.nak, is_nak.then_some(Nak::FullInvalidOperation));
            assert_eq!(image, self::image(4096));
        }
    }
}

#[test]
fn forty_locks_with_figures_too() {
    let (mut image, mut card, mut kept) = (image(4096), Card::EV1, figures(1, 100));
    let mut session = Session([1, 0, 0, 0, 0, 0, 0, 0, 0, 0, 0, 0]);
    let answer = send(
        &mut image,
        &mut card,
        &mut kept,
        &mut session,
        &[0x40, 0x60],
    );
    assert_eq!((answer, kept), (said(0, Sign::Ack), figures(1, 100)));
    let choice = Choice::Locked(Usage::Uidf3);
    let edition = Edition::Ev1;
    assert_eq!(card, Card { edition, choice });
}

#[test]
fn a_reset_keeps_any_figures() {
    let fresh = Answer {
        number: 0,
        sign: Sign::Nothing,
        reply: [0; 16],
    };
    for (card, kept) in [([0; 4], [0; 16]), ([7; 4], [0xFF; 16])] {
        let mut session = Session([9; 12]);
        assert_eq!(session.kept_reset_bytes(&card, &kept), fresh);
        assert_eq!(session, Session::FRESH);
    }
    let mut session = HOLDING;
    assert_eq!(session.kept_reset(&Card::EV1, &figures(-1, 5)), fresh);
    assert_eq!(session, Session::FRESH);
}

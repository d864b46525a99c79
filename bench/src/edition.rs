//! Both editions of the card behind one record: the old one, and EV1 with the values of its NAK and Personalize UID Usage.
//! Written from paper 02 and from tables 10 and 13 of the EV1 sheet, over the commands that both editions share.

use crate::card::{answered, fit, obey, permitted, unsealed, with_seal};
use crate::card::{Answer, Beside, Judged, SealedReply, Session, Sign, Stage, SEALED_RECORD};
use crate::layout::{BlockBytes, BLOCK_BYTES};
use crate::rights::READ;

#[derive(Clone, Copy, PartialEq, Eq, Debug)]
pub enum Edition {
    Old,
    Ev1,
}

/// How a card shows its UID, UIDF0 to UIDF3 of the sheet, by the type bytes that ask for them.
#[derive(Clone, Copy, PartialEq, Eq, Debug)]
pub enum Usage {
    Uidf0 = 0x00,
    Uidf1 = 0x40,
    Uidf2 = 0x20,
    Uidf3 = 0x60,
}

pub const USAGES: [Usage; 4] = [Usage::Uidf0, Usage::Uidf1, Usage::Uidf2, Usage::Uidf3];

impl Usage {
    pub fn of(code: u8) -> Option<Usage> {
        match code {
            0x00 => Some(Usage::Uidf0),
            0x40 => Some(Usage::Uidf1),
            0x20 => Some(Usage::Uidf2),
            0x60 => Some(Usage::Uidf3),
            _ => None,
        }
    }
}

/// What is kept beside an image: which edition the card is, and the choice that was locked, if one was.
#[derive(Clone, Copy, PartialEq, Eq, Debug)]
pub struct CardRecord {
    pub edition: Edition,
    pub choice: Option<Usage>,
}

/// The record as the library's four bytes.
pub type CardBytes = [u8; 4];

pub fn of_card(card: &CardRecord) -> CardBytes {
    let edition = card.edition as u8;
    match card.choice {
        None => [edition, 0, 0, 0],
        Some(usage) => [edition, 1, usage as u8, 0],
    }
}

/// None where no card is written so.
pub fn to_card(bytes: &CardBytes) -> Option<CardRecord> {
    let [edition, locked, usage, zero] = *bytes;
    let edition = match edition {
        0 => Edition::Old,
        1 => Edition::Ev1,
        _ => return None,
    };
    let choice = match (locked, usage) {
        (0, 0) => None,
        (1, _) => Some(Usage::of(usage)?),
        _ => return None,
    };
    (zero == 0).then_some(CardRecord { edition, choice })
}

/// An answer, and the value of an EV1's NAK; 0 where there is none.
#[derive(Clone, Copy, PartialEq, Eq, Debug)]
pub struct Valued {
    pub answer: Answer,
    pub value: u8,
}

/// ENTRY is the boundary's or the player's.
pub fn frame<const ENTRY: u8>(image: &mut [u8], card: &mut CardRecord, session: &mut Session, frame: &[u8], reply: &mut BlockBytes) -> Valued {
    *reply = [0; BLOCK_BYTES];
    valued(card, session, |card, session| judge::<ENTRY>(image, card, session, frame, reply))
}

pub fn sealed_frame(image: &mut [u8], card: &mut CardRecord, session: &mut Session, frame: &[u8], reply: &mut SealedReply) -> Valued {
    valued(card, session, |card, session| with_seal(reply, |data| judge_sealed(image, card, session, frame, data)))
}

/// The answer to a frame, a NAK with the value that the register gives it as the frame met it.
#[inline(always)]
pub fn valued(card: &mut CardRecord, session: &mut Session, judge: impl FnOnce(&mut CardRecord, &mut Session) -> Judged) -> Valued {
    let is_full = session.register.is_some();
    let judged = judge(card, session);
    let answer = answered(session, judged);
    let value = if card.edition == Edition::Ev1 && answer.sign == Sign::Nak { value_of(answer.number, is_full) } else { 0 };
    Valued { answer, value }
}

/// Table 10 of the sheet. The transfer buffer is the register.
fn value_of(number: u8, is_full: bool) -> u8 {
    match (is_full, number) {
        (true, 14) => 0x1,
        (true, _) => 0x0,
        (false, 14) => 0x5,
        (false, _) => 0x4,
    }
}

/// An EV1 has one size.
pub fn is_size(edition: Edition, image: &[u8]) -> bool {
    edition == Edition::Old || image.len() == 4096
}

fn judge<const ENTRY: u8>(image: &mut [u8], card: &mut CardRecord, session: &mut Session, frame: &[u8], reply: &mut BlockBytes) -> Judged {
    fit_card::<ENTRY>(image, card, session)?;
    obey_card::<ENTRY>(image, card, session, &mut (), frame, reply)
}

fn judge_sealed(image: &mut [u8], card: &mut CardRecord, session: &mut Session, frame: &[u8], reply: &mut BlockBytes) -> Judged {
    fit_card::<SEALED_RECORD>(image, card, session)?;
    let bytes = unsealed(frame).ok_or(14)?;
    obey_card::<SEALED_RECORD>(image, card, session, &mut (), bytes, reply)
}

pub fn fit_card<const ENTRY: u8>(image: &[u8], card: &CardRecord, session: &Session) -> Result<(), u8> {
    if !is_size(card.edition, image) {
        return Err(11);
    }
    fit::<ENTRY>(image, session)
}

/// The one command that the editions do not share, or one of the others.
pub fn obey_card<const ENTRY: u8>(
    image: &mut [u8],
    card: &mut CardRecord,
    session: &mut Session,
    beside: &mut impl Beside,
    frame: &[u8],
    reply: &mut BlockBytes,
) -> Judged {
    match (card.edition, session.stage, frame) {
        (Edition::Ev1, Stage::None, [0x40, usage]) => personalize::<ENTRY>(image, card, session, *usage),
        _ => obey::<ENTRY>(image, session, beside, frame, reply),
    }
}

fn personalize<const ENTRY: u8>(image: &[u8], card: &mut CardRecord, session: &Session, code: u8) -> Judged {
    permitted::<ENTRY>(image, session, 0, READ, false)?;
    let usage = Usage::of(code).ok_or(17)?;
    if card.choice.is_some() {
        return Err(18);
    }
    card.choice = Some(usage);
    Ok(Sign::Ack)
}

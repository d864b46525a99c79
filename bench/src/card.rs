//! The card of paper 01 as an unverified engineer would write it, from the paper's text alone.

use crate::crc::{seal_of, Seal};
use crate::layout::{
    bytes_of, bytes_of_mut, group_of, has_block, is_image, is_trailer, sector_of, sectors, trailer_of, BlockBytes, BLOCK_BYTES, TRAILER_GROUP,
};
use crate::rights::{data, has, trailer, AccessBits, Key, DECREMENT, INCREMENT, READ, WRITE};
use crate::value::Value;

#[derive(Clone, Copy, PartialEq, Eq, Debug)]
pub enum Operation {
    Increment,
    Decrement,
    Restore,
}

#[derive(Clone, Copy, PartialEq, Eq, Debug)]
pub enum Stage {
    None,
    Write { block: u8 },
    Value { operation: Operation, block: u8 },
}

#[derive(Clone, Copy, PartialEq, Eq, Debug)]
pub struct Session {
    pub authenticated: Option<(u8, Key)>,
    pub stage: Stage,
    pub register: Option<Value>,
}

pub const FRESH: Session = Session { authenticated: None, stage: Stage::None, register: None };

#[derive(Clone, Copy, PartialEq, Eq, Debug)]
pub enum Sign {
    Ack,
    Nak,
    Data,
    Nothing,
}

/// The sixteen bytes of a Read and their checksum.
pub const SEALED_BYTES: usize = BLOCK_BYTES + size_of::<Seal>();
pub type SealedReply = [u8; SEALED_BYTES];

/// An answer but for its reply, which is lent.
#[derive(Clone, Copy, PartialEq, Eq, Debug)]
pub struct Answer {
    pub number: u8,
    pub sign: Sign,
}

pub fn refusal(number: u8) -> Answer {
    let sign = if matches!(number, 1 | 4 | 11 | 12 | 29) { Sign::Nothing } else { Sign::Nak };
    Answer { number, sign }
}

/// An accepted frame's sign, or the number of its refusal.
pub type Judged = Result<Sign, u8>;

/// The entry that a frame came by. The compiler builds a card for each, as there is one in each of the libraries; shared, all would be slower.
const BARE: u8 = 0;
const SEALED: u8 = 1;
/// With the card's record beside the image; the last is the EV1's player's.
pub const RECORD: u8 = 2;
pub const SEALED_RECORD: u8 = 3;
pub const PLAYED_RECORD: u8 = 4;
/// With its record and its figures.
pub const KEPT: u8 = 5;
pub const SEALED_KEPT: u8 = 6;

/// What is kept beside the blocks of an image.
pub trait Beside {
    /// The content of a data block is about to change, from what reads as `old` to what reads as `new`; or the number that refuses it.
    fn settle(&mut self, old: Option<Value>, new: Option<Value>) -> Result<(), u8>;
}

/// Nothing is kept.
impl Beside for () {
    #[inline(always)]
    fn settle(&mut self, _: Option<Value>, _: Option<Value>) -> Result<(), u8> {
        Ok(())
    }
}

pub fn frame(image: &mut [u8], session: &mut Session, frame: &[u8], reply: &mut BlockBytes) -> Answer {
    *reply = [0; 16];
    let judged = judge(image, session, frame, reply);
    answered(session, judged)
}

/// A frame with its checksum, as the reader chip hands it over. The reply of a Read has its own.
pub fn sealed_frame(image: &mut [u8], session: &mut Session, frame: &[u8], reply: &mut SealedReply) -> Answer {
    let judged = with_seal(reply, |data| judge_sealed(image, session, frame, data));
    answered(session, judged)
}

/// Judges over the first sixteen bytes of a reply, and puts the checksum of a Read's behind them.
#[inline(always)]
pub fn with_seal(reply: &mut SealedReply, judge: impl FnOnce(&mut BlockBytes) -> Judged) -> Judged {
    *reply = [0; SEALED_BYTES];
    let (data, seal) = reply.split_first_chunk_mut().unwrap();
    let judged = judge(data);
    if judged == Ok(Sign::Data) {
        seal.copy_from_slice(&seal_of(data));
    }
    judged
}

pub fn answered(session: &mut Session, judged: Judged) -> Answer {
    match judged {
        Ok(sign) => Answer { number: 0, sign },
        Err(number) => {
            *session = FRESH;
            refusal(number)
        }
    }
}

pub fn field_reset(session: &mut Session, reply: &mut BlockBytes) -> Answer {
    *reply = [0; 16];
    *session = FRESH;
    Answer { number: 0, sign: Sign::Nothing }
}

fn judge(image: &mut [u8], session: &mut Session, frame: &[u8], reply: &mut BlockBytes) -> Judged {
    fit::<BARE>(image, session)?;
    obey::<BARE>(image, session, &mut (), frame, reply)
}

fn judge_sealed(image: &mut [u8], session: &mut Session, frame: &[u8], reply: &mut BlockBytes) -> Judged {
    fit::<SEALED>(image, session)?;
    let bytes = unsealed(frame).ok_or(14)?;
    obey::<SEALED>(image, session, &mut (), bytes, reply)
}

/// The checks that come before the frame's own.
pub fn fit<const ENTRY: u8>(image: &[u8], session: &Session) -> Result<(), u8> {
    if !is_image(image) {
        return Err(11);
    }
    if !is_coherent::<ENTRY>(image, session) {
        return Err(12);
    }
    Ok(())
}

/// The bytes before a right checksum, if there are any.
pub fn unsealed(frame: &[u8]) -> Option<&[u8]> {
    let (bytes, seal) = frame.split_last_chunk()?;
    (!bytes.is_empty() && *seal == seal_of(bytes)).then_some(bytes)
}

pub fn obey<const ENTRY: u8>(image: &mut [u8], session: &mut Session, beside: &mut impl Beside, frame: &[u8], reply: &mut BlockBytes) -> Judged {
    match session.stage {
        Stage::None => command::<ENTRY>(image, session, beside, frame, reply),
        Stage::Write { block } => write_data::<ENTRY>(image, session, beside, block, frame),
        Stage::Value { operation, block } => operand::<ENTRY>(image, session, operation, block, frame),
    }
}

fn is_coherent<const ENTRY: u8>(image: &[u8], session: &Session) -> bool {
    match session.authenticated {
        Some((sector, _)) => sector < sectors(image),
        None => session.stage == Stage::None && session.register.is_none(),
    }
}

fn command<const ENTRY: u8>(image: &mut [u8], session: &mut Session, beside: &mut impl Beside, frame: &[u8], reply: &mut BlockBytes) -> Judged {
    match *frame {
        [0x60, block, ref key @ ..] if key.len() == 6 => authenticate::<ENTRY>(image, session, block, Key::A, key.try_into().unwrap()),
        [0x61, block, ref key @ ..] if key.len() == 6 => authenticate::<ENTRY>(image, session, block, Key::B, key.try_into().unwrap()),
        [0x30, block] => read::<ENTRY>(image, session, block, reply),
        [0xA0, block] => write::<ENTRY>(image, session, block),
        [0xC1, block] => value_operation::<ENTRY>(image, session, Operation::Increment, block),
        [0xC0, block] => value_operation::<ENTRY>(image, session, Operation::Decrement, block),
        [0xC2, block] => value_operation::<ENTRY>(image, session, Operation::Restore, block),
        [0xB0, block] => transfer::<ENTRY>(image, session, beside, block),
        [0x50, 0x00] => {
            *session = FRESH;
            Ok(Sign::Nothing)
        }
        _ => Err(1),
    }
}

fn authenticate<const ENTRY: u8>(image: &[u8], session: &mut Session, block: u8, key: Key, sent: &[u8; 6]) -> Judged {
    if !has_block(image, block) {
        return Err(2);
    }
    let sector = sector_of(block);
    let trailer = bytes_of(image, trailer_of(sector));
    if AccessBits::of(trailer).is_none() {
        return Err(5);
    }
    let stored = match key {
        Key::A => &trailer[0..6],
        Key::B => &trailer[10..16],
    };
    if sent[..] != *stored {
        return Err(4);
    }
    *session = Session { authenticated: Some((sector, key)), stage: Stage::None, register: None };
    Ok(Sign::Ack)
}

/// Checks 2, 3, 5, 6 and 7 of a memory command; then the key, and the trailer's row of its sector.
/// Inlined, like `source`: a call loads the session's bytes as one word just after they were stored one by one, and waits for them.
#[inline(always)]
pub fn permitted<const ENTRY: u8>(image: &[u8], session: &Session, block: u8, column: usize, is_value: bool) -> Result<(Key, u8), u8> {
    if !has_block(image, block) {
        return Err(2);
    }
    let sector = sector_of(block);
    let Some((authenticated, key)) = session.authenticated else { return Err(3) };
    if authenticated != sector {
        return Err(3);
    }
    let Some(access) = AccessBits::of(bytes_of(image, trailer_of(sector))) else { return Err(5) };
    let trailer_row = access.row(TRAILER_GROUP);
    let of_trailer = is_trailer(block);
    if block == 0 && column != READ || of_trailer && is_value {
        return Err(6);
    }
    let allowed =
        if of_trailer { column == READ || has(trailer(trailer_row).write_any(), key) } else { has(data(access.row(group_of(block)))[column], key) };
    if !allowed || key == Key::B && trailer(trailer_row).key_b_readable {
        return Err(7);
    }
    Ok((key, trailer_row))
}

fn read<const ENTRY: u8>(image: &[u8], session: &Session, block: u8, reply: &mut BlockBytes) -> Judged {
    let (_, trailer_row) = permitted::<ENTRY>(image, session, block, READ, false)?;
    *reply = *bytes_of(image, block);
    if is_trailer(block) {
        reply[0..6].fill(0);
        if !trailer(trailer_row).key_b_readable {
            reply[10..16].fill(0);
        }
    }
    Ok(Sign::Data)
}

fn write<const ENTRY: u8>(image: &[u8], session: &mut Session, block: u8) -> Judged {
    permitted::<ENTRY>(image, session, block, WRITE, false)?;
    session.stage = Stage::Write { block };
    Ok(Sign::Ack)
}

fn write_data<const ENTRY: u8>(image: &mut [u8], session: &mut Session, beside: &mut impl Beside, block: u8, frame: &[u8]) -> Judged {
    let data: &BlockBytes = frame.try_into().map_err(|_| 1)?;
    let (key, trailer_row) = permitted::<ENTRY>(image, session, block, WRITE, false)?;
    let stored = bytes_of_mut(image, block);
    if is_trailer(block) {
        write_trailer::<ENTRY>(stored, data, key, trailer_row);
    } else {
        beside.settle(Value::decode(stored), Value::decode(data))?;
        *stored = *data;
    }
    session.stage = Stage::None;
    Ok(Sign::Ack)
}

/// Stores the parts that the key may write.
fn write_trailer<const ENTRY: u8>(stored: &mut BlockBytes, data: &BlockBytes, key: Key, trailer_row: u8) {
    let row = trailer(trailer_row);
    if has(row.write_key_a, key) {
        stored[0..6].copy_from_slice(&data[0..6]);
    }
    if has(row.write_bits, key) {
        stored[6..10].copy_from_slice(&data[6..10]);
    }
    if has(row.write_key_b, key) {
        stored[10..16].copy_from_slice(&data[10..16]);
    }
}

/// The checks of both frames of a value operation; then the source's value.
#[inline(always)]
fn source<const ENTRY: u8>(image: &[u8], session: &Session, operation: Operation, block: u8) -> Result<Value, u8> {
    let column = match operation {
        Operation::Increment => INCREMENT,
        Operation::Decrement | Operation::Restore => DECREMENT,
    };
    permitted::<ENTRY>(image, session, block, column, true)?;
    Value::decode(bytes_of(image, block)).ok_or(8)
}

fn value_operation<const ENTRY: u8>(image: &[u8], session: &mut Session, operation: Operation, block: u8) -> Judged {
    source::<ENTRY>(image, session, operation, block)?;
    session.stage = Stage::Value { operation, block };
    Ok(Sign::Ack)
}

fn operand<const ENTRY: u8>(image: &[u8], session: &mut Session, operation: Operation, block: u8, frame: &[u8]) -> Judged {
    let operand = i32::from_le_bytes(frame.try_into().map_err(|_| 1)?);
    let Value { number, address } = source::<ENTRY>(image, session, operation, block)?;
    if operand < 0 && operation != Operation::Restore {
        return Err(13);
    }
    let result = match operation {
        Operation::Increment => number.checked_add(operand),
        Operation::Decrement => number.checked_sub(operand),
        Operation::Restore => Some(number),
    };
    session.register = Some(Value { number: result.ok_or(10)?, address });
    session.stage = Stage::None;
    Ok(Sign::Nothing)
}

fn transfer<const ENTRY: u8>(image: &mut [u8], session: &Session, beside: &mut impl Beside, block: u8) -> Judged {
    permitted::<ENTRY>(image, session, block, DECREMENT, true)?;
    let value = session.register.ok_or(9)?;
    beside.settle(Value::decode(bytes_of(image, block)), Some(value))?;
    *bytes_of_mut(image, block) = value.encode();
    Ok(Sign::Ack)
}

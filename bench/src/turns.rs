//! The turns of a frame at which a card most easily goes wrong: the ends of the range, the smallest changes, a key of zeros.

use crate::cover::{DECREMENT_OPERAND, INCREMENT_OPERAND, READ, WRITE_DATA};
use crate::layout::{is_trailer, BlockBytes, TRAILER_GROUP};
use crate::rights::{trailer, AccessBits};
use crate::value::Value;

const AT_THE_TOP: &str = "end of the range: a sum at the top";
const ABOVE_THE_TOP: &str = "end of the range: a sum one above the top";
const AT_THE_BOTTOM: &str = "end of the range: a difference at the bottom";
const BELOW_THE_BOTTOM: &str = "end of the range: a difference one below the bottom";
const BIT_OF_DATA: &str = "turn: one bit of a data block is written";
const BIT_OF_TRAILER: &str = "turn: one bit of a trailer is written";
const LAST_OF_DATA: &str = "turn: the last byte of a data block is written alone";
const LAST_OF_TRAILER: &str = "turn: the last byte of a trailer is written alone";
const ZEROS_SHOWN: &str = "turn: a key B of zeros is shown";
const ZEROS_HIDDEN: &str = "turn: a key B of zeros is hidden";

/// What is to be met soon.
pub const ENDS: [&str; 2] = [AT_THE_TOP, AT_THE_BOTTOM];
pub const ALL: [&str; 10] = [
    AT_THE_TOP,
    ABOVE_THE_TOP,
    AT_THE_BOTTOM,
    BELOW_THE_BOTTOM,
    BIT_OF_DATA,
    BIT_OF_TRAILER,
    LAST_OF_DATA,
    LAST_OF_TRAILER,
    ZEROS_SHOWN,
    ZEROS_HIDDEN,
];

/// The turns of a frame of the right length for a block that holds `stored`.
pub fn of(stored: &BlockBytes, block: u8, command: &str, frame: &[u8]) -> Vec<&'static str> {
    match command {
        INCREMENT_OPERAND | DECREMENT_OPERAND => end(stored, command, frame.try_into().unwrap()).into_iter().collect(),
        WRITE_DATA => changes(stored, is_trailer(block), frame.try_into().unwrap()),
        READ if is_trailer(block) => zeros(stored).into_iter().collect(),
        _ => vec![],
    }
}

fn end(stored: &BlockBytes, command: &str, operand: [u8; 4]) -> Option<&'static str> {
    let (number, operand) = (i64::from(Value::decode(stored)?.number), i64::from(i32::from_le_bytes(operand)));
    let (top, bottom) = (i64::from(i32::MAX), i64::from(i32::MIN));
    if operand < 0 {
        return None;
    }
    match command {
        INCREMENT_OPERAND if number + operand == top => Some(AT_THE_TOP),
        INCREMENT_OPERAND if number + operand == top + 1 => Some(ABOVE_THE_TOP),
        DECREMENT_OPERAND if number - operand == bottom => Some(AT_THE_BOTTOM),
        DECREMENT_OPERAND if number - operand == bottom - 1 => Some(BELOW_THE_BOTTOM),
        _ => None,
    }
}

fn changes(stored: &BlockBytes, of_trailer: bool, data: &BlockBytes) -> Vec<&'static str> {
    let mut turns = vec![];
    if is_one_bit(stored, data) {
        turns.push(if of_trailer { BIT_OF_TRAILER } else { BIT_OF_DATA });
    }
    if is_last_byte(stored, data) {
        turns.push(if of_trailer { LAST_OF_TRAILER } else { LAST_OF_DATA });
    }
    turns
}

pub fn is_one_bit(old: &BlockBytes, new: &BlockBytes) -> bool {
    (u128::from_le_bytes(*old) ^ u128::from_le_bytes(*new)).count_ones() == 1
}

pub fn is_last_byte(old: &BlockBytes, new: &BlockBytes) -> bool {
    old[..15] == new[..15] && old[15] != new[15]
}

fn zeros(stored: &BlockBytes) -> Option<&'static str> {
    let row = trailer(AccessBits::of(stored)?.row(TRAILER_GROUP));
    (stored[10..] == [0; 6]).then_some(if row.key_b_readable { ZEROS_SHOWN } else { ZEROS_HIDDEN })
}

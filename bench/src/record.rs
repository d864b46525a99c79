//! The session as the library's twelve bytes, so that the Rust card can be called the way the library is.

use crate::card::{Operation, Session, Stage};
use crate::rights::Key;
use crate::value::Value;

pub type Record = [u8; 12];

pub fn of_session(session: &Session) -> Record {
    let (who, sector) = match session.authenticated {
        None => (0, 0),
        Some((sector, key)) => (key as u8, sector),
    };
    let (waiting, block) = match session.stage {
        Stage::None => (0, 0),
        Stage::Write { block } => (1, block),
        Stage::Value { operation: Operation::Increment, block } => (2, block),
        Stage::Value { operation: Operation::Decrement, block } => (3, block),
        Stage::Value { operation: Operation::Restore, block } => (4, block),
    };
    let (full, address, number) = match session.register {
        None => (0, 0, 0),
        Some(Value { number, address }) => (1, address, number),
    };
    let [n0, n1, n2, n3] = number.to_le_bytes();
    [who, sector, waiting, block, full, address, 0, 0, n0, n1, n2, n3]
}

/// None where no session is written so.
pub fn to_session(record: &Record) -> Option<Session> {
    let [who, sector, waiting, block, full, address, zero0, zero1, n0, n1, n2, n3] = *record;
    let authenticated = match (who, sector) {
        (0, 0) => None,
        (1, _) => Some((sector, Key::A)),
        (2, _) => Some((sector, Key::B)),
        _ => return None,
    };
    let stage = match (waiting, block) {
        (0, 0) => Stage::None,
        (1, _) => Stage::Write { block },
        (2, _) => Stage::Value { operation: Operation::Increment, block },
        (3, _) => Stage::Value { operation: Operation::Decrement, block },
        (4, _) => Stage::Value { operation: Operation::Restore, block },
        _ => return None,
    };
    let number = i32::from_le_bytes([n0, n1, n2, n3]);
    let register = match (full, address, number) {
        (0, 0, 0) => None,
        (1, _, _) => Some(Value { number, address }),
        _ => return None,
    };
    (zero0 == 0 && zero1 == 0).then_some(Session { authenticated, stage, register })
}

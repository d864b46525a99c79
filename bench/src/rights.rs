//! The access bits of a sector and the two tables of rights.

use crate::layout::BlockBytes;

#[derive(Clone, Copy, PartialEq, Eq, Debug)]
pub enum Key {
    A = 1,
    B = 2,
}

/// A set of keys: one bit for each letter.
type Keys = u8;
const NEVER: Keys = 0;
const A: Keys = Key::A as Keys;
const B: Keys = Key::B as Keys;
const AB: Keys = A | B;

pub fn has(keys: Keys, key: Key) -> bool {
    keys & key as Keys != 0
}

/// The columns of the data table: read, write, increment, and decrement with transfer and restore.
pub const READ: usize = 0;
pub const WRITE: usize = 1;
pub const INCREMENT: usize = 2;
pub const DECREMENT: usize = 3;

/// Indexed by C1 C2 C3, C1 counting four.
static DATA: [[Keys; 4]; 8] = [
    [AB, AB, AB, AB],
    [AB, NEVER, NEVER, AB],
    [AB, NEVER, NEVER, NEVER],
    [B, B, NEVER, NEVER],
    [AB, B, NEVER, NEVER],
    [B, NEVER, NEVER, NEVER],
    [AB, B, B, AB],
    [NEVER, NEVER, NEVER, NEVER],
];

pub struct TrailerRow {
    pub write_key_a: Keys,
    pub write_bits: Keys,
    pub write_key_b: Keys,
    pub key_b_readable: bool,
}

impl TrailerRow {
    /// The keys that may write some part of the trailer.
    pub fn write_any(&self) -> Keys {
        self.write_key_a | self.write_bits | self.write_key_b
    }
}

const fn trailer_row(write_key_a: Keys, write_bits: Keys, write_key_b: Keys, key_b_readable: bool) -> TrailerRow {
    TrailerRow { write_key_a, write_bits, write_key_b, key_b_readable }
}

/// Indexed like DATA.
static TRAILER: [TrailerRow; 8] = [
    trailer_row(A, NEVER, A, true),
    trailer_row(A, A, A, true),
    trailer_row(NEVER, NEVER, NEVER, true),
    trailer_row(B, B, B, false),
    trailer_row(B, NEVER, B, false),
    trailer_row(NEVER, B, NEVER, false),
    trailer_row(NEVER, NEVER, NEVER, false),
    trailer_row(NEVER, NEVER, NEVER, false),
];

/// The row of C1 C2 C3.
pub fn data(row: u8) -> &'static [Keys; 4] {
    &DATA[usize::from(row & 7)]
}

pub fn trailer(row: u8) -> &'static TrailerRow {
    &TRAILER[usize::from(row & 7)]
}

/// The access bits of a sector that is not blocked: a nibble for each of C1, C2, C3.
#[derive(Clone, Copy)]
pub struct AccessBits {
    c1: u8,
    c2: u8,
    c3: u8,
}

impl AccessBits {
    /// None where the sector is blocked.
    pub fn of(trailer: &BlockBytes) -> Option<AccessBits> {
        let (c1, c2, c3) = (trailer[7] >> 4, trailer[8] & 15, trailer[8] >> 4);
        let agree = trailer[6] & 15 == 15 - c1 && trailer[6] >> 4 == 15 - c2 && trailer[7] & 15 == 15 - c3;
        agree.then_some(AccessBits { c1, c2, c3 })
    }

    /// C1 C2 C3 of a group: its row in either table.
    pub fn row(self, group: u8) -> u8 {
        let bit = |nibble: u8| nibble >> group & 1;
        bit(self.c1) * 4 + bit(self.c2) * 2 + bit(self.c3)
    }
}

//! What the calls with a card's record have met: the commands as in `cover`, each edition's numbers, each NAK and its value, each kind of record,
//! and Personalize UID Usage in every way.

use crate::cards;
use crate::cover::{Cover, NUMBERS, UNSEALED};
use crate::edition::{CardBytes, USAGES};
use crate::frames::MORE;
use crate::record::{to_session, Record};
use std::collections::BTreeMap;

/// Each thing that a full run must have met this often.
pub const ENOUGH: u64 = 20;

/// The numbers that 40h alone can get.
const PERSONAL: [u8; 2] = [17, 18];
const NAK: u8 = 1;
const EV1_TOO_SMALL: &str = "EV1 of 1024 bytes";
const NO_SESSION_EITHER: &str = "no record, and no session's either";
const ON_OLD: &str = "40h on an old card";
const AWAITED: &str = "40h while a second frame is awaited";
const WRONG_LENGTH: &str = "40h of a wrong length";
const UNKNOWN_WHEN_LOCKED: &str = "40h refused 17 when locked";
const SAME_AGAIN: &str = "40h refused 18 for the same type";

/// A call that was answered.
pub struct Call<'a> {
    pub image_bytes: usize,
    /// The records that it met.
    pub card: CardBytes,
    pub session: Record,
    /// Without its checksum; none for a reset.
    pub frame: Option<&'a [u8]>,
    pub is_sealed: bool,
    pub result: u32,
}

pub struct CardCover {
    pub commands: Cover,
    met: BTreeMap<String, u64>,
}

impl CardCover {
    pub fn new() -> CardCover {
        let met = names().into_iter().map(|name| (name, 0)).collect();
        CardCover { commands: Cover::new(&[&NUMBERS[..], &PERSONAL].concat()), met }
    }

    fn meet(&mut self, name: &str) {
        *self.met.get_mut(name).unwrap_or_else(|| panic!("{name} is not listed")) += 1;
    }

    pub fn call(&mut self, call: &Call) {
        let record = record_name(&call.card);
        self.meet(&record);
        let Some(frame) = call.frame else { return self.meet(&reset_name(&record)) };
        if cards::wrong(&call.card).is_some() {
            if to_session(&call.session).is_none() {
                self.meet(NO_SESSION_EITHER);
            }
            return;
        }
        let is_ev1 = call.card[0] == 1;
        let [number, sign, value, _] = call.result.to_le_bytes();
        self.meet(&number_name(is_ev1, call.is_sealed, number));
        if is_ev1 && sign == NAK {
            self.meet(&nak_name(call.is_sealed, number, value));
        }
        if is_ev1 && call.image_bytes == 1024 {
            self.meet(EV1_TOO_SMALL);
        }
        if frame.first() == Some(&0x40) && ![11, 12, UNSEALED].contains(&number) {
            self.personalize(call, is_ev1, &frame[1..], number);
        }
    }

    fn personalize(&mut self, call: &Call, is_ev1: bool, rest: &[u8], number: u8) {
        let [_, locked, held, _] = call.card;
        match (is_ev1, call.session[2], rest) {
            (true, 0, [usage]) => {
                self.meet(&personal_name(call.is_sealed, number, *usage));
                if (number, locked) == (17, 1) {
                    self.meet(UNKNOWN_WHEN_LOCKED);
                }
                if number == 18 && held == *usage {
                    self.meet(SAME_AGAIN);
                }
            }
            (true, 0, _) => {
                self.meet(WRONG_LENGTH);
                if let Some(more) = MORE.into_iter().find(|more| rest.len() == 1 + more) {
                    self.meet(&longer_name(more));
                }
            }
            (true, ..) => self.meet(AWAITED),
            (false, 0, [_]) => self.meet(ON_OLD),
            _ => (),
        }
    }

    /// What was met too seldom, of the commands too.
    pub fn thin(&self) -> Vec<String> {
        let own = self.met.iter().filter(|(_, count)| **count < ENOUGH).map(|(name, count)| format!("{name} {count}"));
        own.chain(self.commands.thin(ENOUGH).into_iter().map(|thing| format!("with a record: {thing}"))).collect()
    }

    pub fn things(&self) -> usize {
        self.met.len() + self.commands.things()
    }

    pub fn print_counts(&self) {
        self.met.iter().for_each(|(name, count)| println!("  {name:52} {count:9}"));
        println!("  with a record, {}", self.commands.line());
    }
}

/// Everything that has to be met.
fn names() -> Vec<String> {
    let mut names: Vec<String> =
        [EV1_TOO_SMALL, NO_SESSION_EITHER, ON_OLD, AWAITED, WRONG_LENGTH, UNKNOWN_WHEN_LOCKED, SAME_AGAIN].map(String::from).into();
    names.extend(MORE.map(longer_name));
    for is_sealed in [false, true] {
        let last = if is_sealed { UNSEALED } else { 13 };
        names.extend((0..=last).map(|number| number_name(false, is_sealed, number)));
        // A large card has every block, so an EV1 knows no 2.
        names.extend((0..=last).filter(|number| *number != 2).chain(PERSONAL).map(|number| number_name(true, is_sealed, number)));
        for number in [3, 5, 6, 7, 8, 10, 13, 17, 18] {
            names.extend([0, 4].map(|value| nak_name(is_sealed, number, value)));
        }
        names.push(nak_name(is_sealed, 9, 4));
        names.extend(USAGES.map(|usage| personal_name(is_sealed, 0, usage as u8)));
        names.extend([3, 5, 7, 17, 18].map(|number| personal_name(is_sealed, number, 0)));
    }
    names.extend([1, 5].map(|value| nak_name(true, UNSEALED, value)));
    names.extend(records().into_iter().flat_map(|record| [reset_name(&record), record]));
    names
}

fn records() -> Vec<String> {
    let chosen = |edition: u8| USAGES.map(|usage| record_name(&[edition, 1, usage as u8, 0]));
    let open = [0, 1].map(|edition| record_name(&[edition, 0, 0, 0]));
    open.into_iter().chain([0, 1].into_iter().flat_map(chosen)).chain(cards::WRONG.map(wrong_name)).collect()
}

fn edition_name(is_ev1: bool) -> &'static str {
    if is_ev1 {
        "EV1"
    } else {
        "old"
    }
}

fn entry_name(is_sealed: bool) -> &'static str {
    if is_sealed {
        "sealed "
    } else {
        ""
    }
}

fn record_name(card: &CardBytes) -> String {
    let edition = edition_name(card[0] == 1);
    match (cards::wrong(card), card[1]) {
        (Some(way), _) => wrong_name(way),
        (None, 0) => format!("record: {edition}, open"),
        (None, _) => format!("record: {edition}, locked with {:02X}", card[2]),
    }
}

fn wrong_name(way: &str) -> String {
    format!("no record: {way}")
}

fn reset_name(record: &str) -> String {
    format!("reset, {record}")
}

fn number_name(is_ev1: bool, is_sealed: bool, number: u8) -> String {
    format!("{} {}number {number:2}", edition_name(is_ev1), entry_name(is_sealed))
}

fn nak_name(is_sealed: bool, number: u8, value: u8) -> String {
    format!("NAK {value:X} {}number {number:2}", entry_name(is_sealed))
}

/// By its type where it is accepted.
fn personal_name(is_sealed: bool, number: u8, usage: u8) -> String {
    let entry = entry_name(is_sealed);
    match number {
        0 => format!("40h {entry}locks {usage:02X}"),
        _ => format!("40h {entry}refused {number}"),
    }
}

fn longer_name(more: usize) -> String {
    format!("40h and {more} more")
}

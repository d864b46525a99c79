//! Random records of cards, four bytes each: lawful ones, and bytes that are none.

use crate::edition::{CardBytes, USAGES};
use crate::random::Random;

/// How four bytes can fail to be a record.
pub const WRONG: [&str; 5] = ["edition", "neither open nor locked", "open with a type", "locked with an unknown type", "last byte"];

pub fn any(random: &mut Random, image: &[u8]) -> CardBytes {
    let mut card = lawful(random, image);
    if random.percent(8) {
        forge(random, &mut card);
    }
    card
}

/// An EV1 in most, but seldom on an image that is too small for it.
pub fn lawful(random: &mut Random, image: &[u8]) -> CardBytes {
    let is_ev1 = random.percent(if image.len() == 1024 { 12 } else { 75 });
    let usage = random.pick(&USAGES) as u8;
    let [locked, usage] = if random.percent(40) { [1, usage] } else { [0, 0] };
    [u8::from(is_ev1), locked, usage, 0]
}

/// One byte that makes it no record, or any four bytes.
fn forge(random: &mut Random, card: &mut CardBytes) {
    match random.below(6) {
        0 => *card = random.bytes(),
        1 => card[0] = 2 + random.byte() % 254,
        2 => card[1] = 2 + random.byte() % 254,
        3 => (card[1], card[2]) = (0, random.pick(&[0x20, 0x40, 0x60, 0x01, 0x80])),
        4 => (card[1], card[2]) = (1, random.pick(&[0x01, 0x10, 0x21, 0x42, 0x61, 0x80, 0xE0, 0xFF])),
        _ => card[3] = 1 << random.below(8),
    }
}

/// The first way in which these bytes are no record, or None where they are one.
pub fn wrong(card: &CardBytes) -> Option<&'static str> {
    let [edition, locked, usage, last] = *card;
    let is_usage = USAGES.iter().any(|known| *known as u8 == usage);
    let ways = [edition > 1, locked > 1, locked == 0 && usage != 0, locked == 1 && !is_usage, last != 0];
    ways.iter().position(|way| *way).map(|place| WRONG[place])
}

//! Forged session records of every kind.

use crate::frames::{self, Awaited};
use crate::images;
use crate::layout::{bytes_of, group_of, has_block, is_image, is_trailer, sector_of, sectors, trailer_of, TRAILER_GROUP};
use crate::random::Random;
use crate::record::Record;
use crate::rights::{self, AccessBits, Key, DECREMENT, INCREMENT, WRITE};
use crate::value::Value;

/// How often a record is drawn whose second frame is to be accepted.
const DRAWS: usize = 40;

/// A record that no card need have written: most name a sector of the image, the others break one rule or all.
pub fn forged(random: &mut Random, image: &[u8]) -> Record {
    if random.percent(30) {
        return hopeful(random, image);
    }
    let stage = random.pick(&[0, 0, 0, 0, 1, 1, 2, 3, 4]);
    let mut record = authenticated(random, image, stage);
    match random.below(20) {
        0 => record = random.bytes(),
        1 => record[random.below(12)] = random.byte(),
        2 => record[1] = if random.percent(50) { sectors(image) } else { random.byte() },
        3 => record[0..2].fill(0),
        4 => record = [0; 12],
        _ => (),
    }
    record
}

/// A record for a frame about sector 0: of somebody who is authenticated there and is awaited for nothing, in most.
pub fn at_sector_0(random: &mut Random, image: &[u8]) -> Record {
    if random.percent(15) {
        return forged(random, image);
    }
    let mut record = authenticated(random, image, 0);
    record[1] = 0;
    record
}

/// A record whose key has the right to what its second frame is about, unless the image hides such blocks well.
fn hopeful(random: &mut Random, image: &[u8]) -> Record {
    let stage = random.pick(&[1, 2, 2, 2, 3, 3, 3, 4]);
    hopeful_of(random, image, stage)
}

fn hopeful_of(random: &mut Random, image: &[u8], stage: u8) -> Record {
    let mut record = authenticated(random, image, stage);
    for _ in 0..DRAWS {
        if has_right(image, &record) {
            break;
        }
        record = authenticated(random, image, stage);
    }
    record
}

/// For a Write or a value operation on a data block, which for the latter holds a value.
fn has_right(image: &[u8], record: &Record) -> bool {
    let [_, _, stage, block, ..] = *record;
    let column = match stage {
        1 => WRITE,
        2 => INCREMENT,
        _ => DECREMENT,
    };
    may(image, record, block, column) && (stage == 1 || Value::decode(bytes_of(image, block)).is_some())
}

/// Has who is authenticated the right of a column for a data block?
fn may(image: &[u8], record: &Record, block: u8, column: usize) -> bool {
    let [who, sector, ..] = *record;
    if !is_image(image) || !has_block(image, block) || block == 0 || is_trailer(block) || sector_of(block) != sector {
        return false;
    }
    let Some(access) = AccessBits::of(bytes_of(image, trailer_of(sector))) else { return false };
    let (key, is_mute) = if who == 1 { (Key::A, false) } else { (Key::B, rights::trailer(access.row(TRAILER_GROUP)).key_b_readable) };
    !is_mute && rights::has(rights::data(access.row(group_of(block)))[column], key)
}

/// The record of somebody who may transfer into a data block, with a full register, and that block; unless the image hides such blocks well.
pub fn for_transfer(random: &mut Random, image: &[u8]) -> (Record, u8) {
    let (mut record, mut block) = ([0; 12], 0);
    for _ in 0..DRAWS {
        record = authenticated(random, image, 0);
        block = frames::block(random, record[1]);
        if may(image, &record, block, DECREMENT) {
            break;
        }
    }
    record[4..6].copy_from_slice(&[1, random.byte()]);
    record[8..12].copy_from_slice(&images::number(random).to_le_bytes());
    (record, block)
}

/// A block of the same sector with a value that the same key may load, unless there is none.
pub fn source_for(random: &mut Random, image: &[u8], record: &Record) -> u8 {
    let mut block = 0;
    for _ in 0..DRAWS {
        block = frames::block(random, record[1]);
        if may(image, record, block, DECREMENT) && Value::decode(bytes_of(image, block)).is_some() {
            break;
        }
    }
    block
}

/// The record of somebody whose data for a data block are awaited, and who may write there, unless the image hides such blocks well.
pub fn for_write(random: &mut Random, image: &[u8]) -> Record {
    hopeful_of(random, image, 1)
}

/// The same for a trailer, by somebody who may write some part of it.
pub fn for_trailer(random: &mut Random, image: &[u8]) -> Record {
    let mut record = [0; 12];
    for _ in 0..DRAWS {
        record = authenticated(random, image, 1);
        record[3] = trailer_of(record[1]);
        let row =
            is_image(image).then(|| AccessBits::of(bytes_of(image, record[3]))).flatten().map(|access| rights::trailer(access.row(TRAILER_GROUP)));
        let key = if record[0] == 1 { Key::A } else { Key::B };
        if row.is_some_and(|row| rights::has(row.write_any(), key) && !(key == Key::B && row.key_b_readable)) {
            break;
        }
    }
    record
}

fn authenticated(random: &mut Random, image: &[u8], stage: u8) -> Record {
    let mut record = [0; 12];
    record[0] = random.pick(&[1, 2]);
    record[1] = random.below(usize::from(sectors(image))) as u8;
    record[2] = stage;
    if record[2] != 0 {
        record[3] = frames::block(random, record[1]);
    }
    if random.percent(50) {
        record[4] = 1;
        record[5] = random.byte();
        random.fill(&mut record[8..12]);
    }
    record
}

/// The second frame that a record's stage awaits.
pub fn awaited(record: &Record) -> Awaited {
    match record[2] {
        1 => Awaited::Data(record[3]),
        2..=4 => Awaited::Operand(record[3]),
        _ => Awaited::Nothing,
    }
}

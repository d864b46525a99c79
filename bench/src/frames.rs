//! Random frames: each command to each kind of block, second frames, wrong lengths, unknown codes, noise.

use crate::edition::USAGES;
use crate::images;
use crate::layout::{blocks_of, bytes_of, has_block, sector_of, sectors, trailer_of, BlockBytes, BLOCK_BYTES};
use crate::random::Random;
use crate::value::Value;

/// So many bytes more make the same length, where one byte or two bytes of it are looked at.
pub const MORE: [usize; 2] = [256, 65536];

/// The second frame that a reader takes to be awaited, and for which block.
#[derive(Clone, Copy, PartialEq, Eq)]
pub enum Awaited {
    Nothing,
    Data(u8),
    Operand(u8),
}

/// A frame for a sector of an image, as a reader would send it that takes `awaited` to be awaited.
pub fn any(random: &mut Random, image: &[u8], sector: u8, awaited: Awaited) -> Vec<u8> {
    if random.percent(8) {
        return noise(random);
    }
    match awaited {
        Awaited::Data(block) => data(random, stored(image, block)).to_vec(),
        Awaited::Operand(block) => operand(random, stored(image, block)).to_le_bytes().to_vec(),
        Awaited::Nothing => command(random, image, sector),
    }
}

/// What the block holds, if the image has it.
pub fn stored(image: &[u8], block: u8) -> Option<&BlockBytes> {
    has_block(image, block).then(|| bytes_of(image, block))
}

fn data(random: &mut Random, stored: Option<&BlockBytes>) -> BlockBytes {
    match stored {
        Some(bytes) if random.percent(40) => nearly(random, *bytes),
        _ if random.percent(50) => images::trailer(random),
        _ => images::data(random),
    }
}

/// The same but for one bit, for the last byte, or for one byte that may be any.
fn nearly(random: &mut Random, mut bytes: BlockBytes) -> BlockBytes {
    match random.below(4) {
        0 => bytes[BLOCK_BYTES - 1] = random.byte(),
        1 => bytes[random.below(BLOCK_BYTES)] = random.byte(),
        _ => bytes[random.below(BLOCK_BYTES)] ^= 1 << random.below(8),
    }
    bytes
}

/// A Write from its Authenticate on, by a reader who knows the key, of data that differ from the block's in little.
pub fn small_change(random: &mut Random, image: &[u8]) -> [Vec<u8>; 3] {
    let sector = random.below(usize::from(sectors(image))) as u8;
    let (block, code) = (block(random, sector), random.pick(&[0x60, 0x61]));
    let data = stored(image, block).map_or([0; BLOCK_BYTES], |bytes| nearly(random, *bytes));
    [opener(image, block, code), vec![0xA0, block], data.to_vec()]
}

/// An Authenticate with the key of this code that the image holds.
pub fn opener(image: &[u8], block: u8, code: u8) -> Vec<u8> {
    [&[code, block], &stored_key(image, block, code)[..]].concat()
}

/// Personalize UID Usage from an Authenticate on, by a reader who knows the key and has a value in the register by then, where the rights allow.
pub fn personalize_with_a_value(random: &mut Random, image: &[u8]) -> [Vec<u8>; 4] {
    let (block, code) = (random.pick(&[1, 2]), random.pick(&[0x60, 0x61]));
    [opener(image, block, code), vec![0xC2, block], vec![0; 4], personalize(random)]
}

/// For a value, often what takes it to the end of the range on its own side of zero, or one further.
pub fn operand(random: &mut Random, stored: Option<&BlockBytes>) -> i32 {
    let value = stored.and_then(Value::decode);
    let to_the_end = value.map(|Value { number, .. }| if number < 0 { number - i32::MIN } else { i32::MAX - number });
    match (random.below(20), to_the_end) {
        (0..=6, Some(operand)) => operand,
        (7..=11, Some(operand)) => operand.wrapping_add(1),
        _ => images::number(random),
    }
}

/// More bytes behind a frame, so that only a card that looks at its whole length sees that it is none.
pub fn lengthen(random: &mut Random, frame: &mut Vec<u8>) {
    frame.resize(frame.len() + random.pick(&MORE), random.byte());
}

fn command(random: &mut Random, image: &[u8], sector: u8) -> Vec<u8> {
    let block = block(random, sector);
    match random.below(100) {
        0..=11 => authenticate(random, image, block),
        12..=14 => vec![0x50, 0x00],
        _ => vec![random.pick(&[0x30, 0x30, 0xA0, 0xA0, 0xC0, 0xC1, 0xC2, 0xB0]), block],
    }
}

/// Mostly a block of the sector, its trailer more often than its share of the sector.
pub fn block(random: &mut Random, sector: u8) -> u8 {
    if random.percent(4) {
        return random.byte();
    }
    if random.percent(25) {
        return trailer_of(sector % 40);
    }
    let (first, count) = blocks_of(sector % 40);
    first + random.below(usize::from(count)) as u8
}

pub fn authenticate(random: &mut Random, image: &[u8], block: u8) -> Vec<u8> {
    let code = random.pick(&[0x60, 0x61]);
    let mut frame = vec![code, block];
    frame.extend(stored_key(image, block, code));
    if random.percent(25) {
        let at = 2 + random.below(6);
        frame[at] ^= 1 << random.below(8);
    }
    frame
}

/// The key that the image holds for this block, or a transport key where it has no such block.
fn stored_key(image: &[u8], block: u8, code: u8) -> [u8; 6] {
    let trailer_block = trailer_of(sector_of(block));
    if !has_block(image, trailer_block) {
        return [0xFF; 6];
    }
    let trailer = bytes_of(image, trailer_block);
    let start = if code == 0x60 { 0 } else { 10 };
    trailer[start..start + 6].try_into().unwrap()
}

/// Personalize UID Usage, one in four with a type that is none.
pub fn personalize(random: &mut Random) -> Vec<u8> {
    let usage = match random.below(8) {
        0 => random.byte(),
        1 => random.pick(&[0x01, 0x10, 0x21, 0x42, 0x61, 0x80, 0xA0, 0xC0, 0xE0]),
        _ => random.pick(&USAGES) as u8,
    };
    vec![0x40, usage]
}

/// A known code at a wrong length, a Halt that is none, an unknown code, or bytes of any length.
fn noise(random: &mut Random) -> Vec<u8> {
    let mut frame = vec![0; random.pick(&[0, 1, 2, 2, 3, 4, 5, 7, 8, 9, 15, 16, 17, 18, 40, 300])];
    random.fill(&mut frame);
    if random.percent(70) && !frame.is_empty() {
        frame[0] = random.pick(&[0x60, 0x61, 0x30, 0xA0, 0xC0, 0xC1, 0xC2, 0xB0, 0x50, 0x40, 0x43]);
    }
    frame
}

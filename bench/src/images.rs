//! Random images: right and wrong sizes, every kind of trailer, value blocks and what only looks like one.

use crate::layout::{bytes_of_mut, is_trailer, BlockBytes, BLOCK_BYTES};
use crate::random::Random;
use crate::value::Value;

pub const RIGHT_SIZES: [usize; 2] = [1024, 4096];
/// The last two are a card's where only two bytes of the length are looked at.
pub const WRONG_SIZES: [usize; 14] = [0, 1, 16, 1008, 1023, 1025, 1040, 2048, 4080, 4095, 4097, 4112, 1024 + 65536, 4096 + 65536];
const NUMBERS_AT_THE_EDGE: [i32; 8] = [0, 1, -1, 100, i32::MAX, i32::MIN, i32::MAX - 1, i32::MIN + 1];
pub const TRANSPORT_BITS: [u8; 3] = [0xFF, 0x07, 0x80];

pub fn any_size(random: &mut Random) -> Vec<u8> {
    if random.percent(4) {
        wrong_size(random)
    } else {
        right_size(random)
    }
}

fn wrong_size(random: &mut Random) -> Vec<u8> {
    let mut image = vec![0; random.pick(&WRONG_SIZES)];
    random.fill(&mut image);
    image
}

/// For a call with a card's record: large in most, since an EV1 is.
pub fn mostly_large(random: &mut Random) -> Vec<u8> {
    match random.below(100) {
        0..=3 => wrong_size(random),
        4..=23 => of_size(random, 1024),
        _ => of_size(random, 4096),
    }
}

pub fn right_size(random: &mut Random) -> Vec<u8> {
    let bytes = random.pick(&RIGHT_SIZES);
    of_size(random, bytes)
}

pub fn of_size(random: &mut Random, bytes: usize) -> Vec<u8> {
    let mut image = vec![0; bytes];
    for block in 0..image.len() / BLOCK_BYTES {
        let block = block as u8;
        *bytes_of_mut(&mut image, block) = if is_trailer(block) { trailer(random) } else { data(random) };
    }
    image
}

pub fn data(random: &mut Random) -> BlockBytes {
    match random.below(10) {
        0 => [0; BLOCK_BYTES],
        1 => random.bytes(),
        2 => {
            let mut nearly_a_value = value(random).encode();
            nearly_a_value[random.below(BLOCK_BYTES)] ^= 1 << random.below(8);
            nearly_a_value
        }
        _ => value(random).encode(),
    }
}

fn value(random: &mut Random) -> Value {
    Value { number: number(random), address: random.byte() }
}

pub fn number(random: &mut Random) -> i32 {
    if random.percent(50) {
        random.pick(&NUMBERS_AT_THE_EDGE)
    } else {
        random.word() as i32
    }
}

pub fn trailer(random: &mut Random) -> BlockBytes {
    let mut trailer = [0; BLOCK_BYTES];
    trailer[0..6].copy_from_slice(&key(random));
    trailer[6..9].copy_from_slice(&access_bytes(random));
    trailer[9] = random.byte();
    trailer[10..16].copy_from_slice(&key(random));
    trailer
}

/// Sixteen bytes that are a trailer with such access bytes as any has, and read as a value block all the same.
pub fn value_trailer(random: &mut Random) -> BlockBytes {
    let [b6, b7, b8] = access_bytes(random);
    let number = i32::from_le_bytes([b8, random.byte(), !b6, !b7]);
    Value { number, address: random.byte() }.encode()
}

/// A card whose every data block, and block 0, holds a value, each of these.
pub fn rich(random: &mut Random, bytes: usize, numbers: &[i32]) -> Vec<u8> {
    let mut image = of_size(random, bytes);
    for block in (0..bytes / BLOCK_BYTES).map(|block| block as u8).filter(|block| !is_trailer(*block)) {
        *bytes_of_mut(&mut image, block) = Value { number: random.pick(numbers), address: random.byte() }.encode();
    }
    image
}

fn key(random: &mut Random) -> [u8; 6] {
    match random.below(20) {
        0..=5 => [0xFF; 6],
        6..=9 => [0; 6],
        _ => random.bytes(),
    }
}

fn access_bytes(random: &mut Random) -> [u8; 3] {
    let (c1, c2, c3) = (random.byte() & 15, random.byte() & 15, random.byte() & 15);
    let mut bytes = [(15 - c2) << 4 | (15 - c1), c1 << 4 | (15 - c3), c3 << 4 | c2];
    match random.below(10) {
        0 => bytes = random.bytes(),
        1 => bytes[random.below(3)] ^= 1 << random.below(8),
        2 => bytes = TRANSPORT_BITS,
        _ => (),
    }
    bytes
}

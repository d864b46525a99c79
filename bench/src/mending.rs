//! Torn value blocks: mended where most of their readings agree.

use crate::layout::{bytes_of_mut, has_block, is_image, is_trailer, BlockBytes, BLOCK_BYTES};
use crate::value::Value;

pub const REPORT_BYTES: usize = 768;
pub const MOST_NAMES: usize = 256;

pub type Report = [u8; REPORT_BYTES];

/// What at least so many of the readings say.
fn majority<T: Copy + PartialEq>(readings: &[T], enough: usize) -> Option<T> {
    readings.iter().copied().find(|one| readings.iter().filter(|other| *other == one).count() >= enough)
}

fn mended(block: &BlockBytes) -> Option<BlockBytes> {
    let word = |at: usize| i32::from_le_bytes([block[at], block[at + 1], block[at + 2], block[at + 3]]);
    let number = majority(&[word(0), !word(4), word(8)], 2)?;
    let address = majority(&[block[12], !block[13], block[14], !block[15]], 3)?;
    Some(Value { number, address }.encode())
}

/// The block's number, and a bit for each of its bytes that changed.
fn mend_one(image: &mut [u8], block: u8) -> (u8, u16) {
    if !has_block(image, block) {
        return (2, 0);
    }
    if block == 0 || is_trailer(block) {
        return (6, 0);
    }
    let bytes = bytes_of_mut(image, block);
    let Some(whole) = mended(bytes) else { return (19, 0) };
    let changed = (0..BLOCK_BYTES).filter(|i| bytes[*i] != whole[*i]).fold(0, |bits, i| bits | 1 << i);
    *bytes = whole;
    (0, changed)
}

pub fn mend(image: &mut [u8], names: &[u8], report: &mut Report) -> u8 {
    report.fill(0);
    if !is_image(image) {
        return 11;
    }
    if names.len() > MOST_NAMES {
        return 30;
    }
    for (row, name) in report.chunks_mut(3).zip(names) {
        let (number, changed) = mend_one(image, *name);
        row[0] = number;
        row[1..].copy_from_slice(&changed.to_le_bytes());
    }
    0
}

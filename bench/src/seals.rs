//! Frames with a checksum behind them, right or wrong in each way that a card must tell from right.

use crate::crc::seal_of;
use crate::frames::{self, MORE};
use crate::random::Random;
use crate::reader::Sent;

/// A bare frame with its checksum, in most a right one.
pub fn any(random: &mut Random, frame: &[u8]) -> Vec<u8> {
    let seal = seal_of(frame);
    let mut sealed = [frame, &seal].concat();
    match random.below(40) {
        0 => flip(random, &mut sealed),
        1 => sealed.swap(frame.len(), frame.len() + 1),
        2 => sealed.truncate(frame.len()),
        3 => sealed.truncate(frame.len() + 1),
        4 => sealed[frame.len()..].copy_from_slice(&random.bytes::<2>()),
        5 => sealed = short(random),
        6 => frames::lengthen(random, &mut sealed),
        _ => (),
    }
    sealed
}

/// One bit of the frame or of its checksum, each half of the time: a frame may be much longer.
fn flip(random: &mut Random, sealed: &mut [u8]) {
    let from = if random.percent(50) { 0 } else { sealed.len() - 2 };
    let at = from + random.below(sealed.len() - from);
    sealed[at] ^= 1 << random.below(8);
}

/// Nothing, or one or two bytes, among them the checksum of nothing.
fn short(random: &mut Random) -> Vec<u8> {
    match random.below(4) {
        0 => vec![],
        1 => vec![random.byte()],
        2 => vec![0x63, 0x63],
        _ => random.bytes::<2>().to_vec(),
    }
}

/// The ways in which a frame gets 14.
pub const WRONG: [&str; 9] =
    ["empty", "one byte", "63 63", "two bytes", "bytes exchanged", "one bit of it", "another", "right and 256 more", "right and 65536 more"];

/// The way in which this one's checksum is wrong, or None where it is right.
pub fn wrong(sealed: &[u8]) -> Option<&'static str> {
    match sealed {
        [] => return Some("empty"),
        [_] => return Some("one byte"),
        [0x63, 0x63] => return Some("63 63"),
        [_, _] => return Some("two bytes"),
        _ => (),
    }
    let (bytes, sent) = sealed.split_last_chunk::<2>()?;
    let [low, high] = seal_of(bytes);
    let bits = (sent[0] ^ low).count_ones() + (sent[1] ^ high).count_ones();
    match bits {
        0 => None,
        _ if is_right_before(sealed, MORE[0]) => Some("right and 256 more"),
        _ if is_right_before(sealed, MORE[1]) => Some("right and 65536 more"),
        1 => Some("one bit of it"),
        _ if *sent == [high, low] => Some("bytes exchanged"),
        _ => Some("another"),
    }
}

/// Is what stands before the last bytes a frame with a right checksum?
fn is_right_before(sealed: &[u8], count: usize) -> bool {
    let before = sealed.len().checked_sub(count).and_then(|end| sealed[..end].split_last_chunk());
    before.is_some_and(|(bytes, seal)| !bytes.is_empty() && *seal == seal_of(bytes))
}

/// The bytes before the checksum, which the card judges where it is right.
pub fn inner(sealed: &[u8]) -> &[u8] {
    &sealed[..sealed.len().saturating_sub(2)]
}

/// Some frames get longer, and so many of a hundred get a checksum.
pub fn on_the_air(random: &mut Random, sealed_share: usize, sent: Sent) -> Sent {
    let Sent::Frame(mut frame) = sent else { return sent };
    if random.percent(4) {
        frames::lengthen(random, &mut frame);
    }
    if random.percent(sealed_share) {
        Sent::Sealed(any(random, &frame))
    } else {
        Sent::Frame(frame)
    }
}

/// A frame without its checksum; none for a field reset.
pub fn bare(sent: &Sent) -> Option<&[u8]> {
    match sent {
        Sent::Frame(frame) => Some(frame),
        Sent::Sealed(frame) => Some(inner(frame)),
        Sent::FieldReset => None,
    }
}

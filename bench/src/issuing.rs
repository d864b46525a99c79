//! The issuing desk: a directory written and read as a whole, and a sector's access bytes written from its groups' bits and read back.

use crate::directory::{checksum, last_sector, ANNOUNCING, FIRST, SECOND};
use crate::layout::{bytes_of, bytes_of_mut, is_image, sectors, trailer_of};
use crate::rights::AccessBits;

pub const NUMBERS_BYTES: usize = 76;
pub const FIRST_BYTES: usize = 30;

pub type Infos = [u8; 2];
pub type Numbers = [u8; NUMBERS_BYTES];
pub type GroupBits = [u8; 4];

/// Bits 6 to 2 of the announcing byte are not the desk's.
const KEPT: u8 = 0x7C;
const PRESENT: u8 = 0x80;

/// A part in full, its checksum last.
fn lay(part: &mut [u8], info: u8, numbers: &[u8]) {
    part[1] = info;
    part[2..].copy_from_slice(numbers);
    part[0] = checksum(&part[1..]);
}

pub fn write_directory(image: &mut [u8], infos: &Infos, numbers: &[u8]) -> u8 {
    if !is_image(image) {
        return 11;
    }
    let version = match (numbers.len(), image.len()) {
        (FIRST_BYTES, _) => 1,
        (NUMBERS_BYTES, 4096) => 2,
        _ => return 27,
    };
    lay(&mut image[FIRST], infos[0], &numbers[..FIRST_BYTES]);
    if version == 2 {
        lay(&mut image[SECOND], infos[1], &numbers[FIRST_BYTES..]);
    }
    image[ANNOUNCING] = image[ANNOUNCING] & KEPT | PRESENT | version;
    0
}

/// The number and the version.
pub fn read_directory(image: &[u8], infos: &mut Infos, numbers: &mut Numbers) -> (u8, u8) {
    *infos = [0; 2];
    *numbers = [0; NUMBERS_BYTES];
    let last = match last_sector(image) {
        Ok(last) => last,
        Err(number) => return (number, 0),
    };
    infos[0] = image[FIRST.start + 1];
    numbers[..FIRST_BYTES].copy_from_slice(&image[FIRST.start + 2..FIRST.end]);
    if last < 16 {
        return (0, 1);
    }
    infos[1] = image[SECOND.start + 1];
    numbers[FIRST_BYTES..].copy_from_slice(&image[SECOND.start + 2..SECOND.end]);
    (0, 2)
}

/// Bytes 6, 7 and 8 of a trailer: bit g of each nibble is group g's.
fn access_bytes(bits: &GroupBits) -> [u8; 3] {
    let nibble = |shift: u8| bits.iter().enumerate().fold(0, |nibble, (group, bits)| nibble | (bits >> shift & 1) << group);
    let (c1, c2, c3): (u8, u8, u8) = (nibble(2), nibble(1), nibble(0));
    [(15 - c2) << 4 | (15 - c1), c1 << 4 | (15 - c3), c3 << 4 | c2]
}

/// The trailer of a sector that the image has, or the number that refuses it.
fn trailer_in(image: &[u8], sector: u32) -> Result<u8, u8> {
    if !is_image(image) {
        return Err(11);
    }
    if sector >= u32::from(sectors(image)) {
        return Err(2);
    }
    Ok(trailer_of(sector as u8))
}

pub fn write_access(image: &mut [u8], sector: u32, bits: &GroupBits) -> u8 {
    let trailer = match trailer_in(image, sector) {
        Ok(trailer) => trailer,
        Err(number) => return number,
    };
    if bits.iter().any(|bits| *bits > 7) {
        return 28;
    }
    bytes_of_mut(image, trailer)[6..9].copy_from_slice(&access_bytes(bits));
    0
}

pub fn read_access(image: &[u8], sector: u32, bits: &mut GroupBits) -> u8 {
    *bits = [0; 4];
    let trailer = match trailer_in(image, sector) {
        Ok(trailer) => trailer,
        Err(number) => return number,
    };
    let Some(access) = AccessBits::of(bytes_of(image, trailer)) else { return 5 };
    *bits = [0, 1, 2, 3].map(|group| access.row(group));
    0
}

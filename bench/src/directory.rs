//! The MIFARE Application Directory: read from an image, its checksums judged, and a number looked up. The checksum goes by a table that the compiler makes bit by bit.

use crate::layout::is_image;

const START: u8 = 0xC7;
const POLYNOMIAL: u8 = 0x1D;
const TABLE: [u8; 256] = table();

/// Byte 9 of block 3.
pub const ANNOUNCING: usize = 57;
/// The bytes of the part in sector 0, and of the one in sector 16. Each begins with its checksum.
pub const FIRST: std::ops::Range<usize> = 16..48;
pub const SECOND: std::ops::Range<usize> = 1024..1072;

#[derive(Clone, Copy)]
pub struct Lookup {
    pub number: u8,
    pub sector: Option<u8>,
    pub count: u8,
}

const fn table() -> [u8; 256] {
    let mut table = [0; 256];
    let mut byte = 0;
    while byte < 256 {
        table[byte] = eight_shifts(byte as u8);
        byte += 1;
    }
    table
}

const fn eight_shifts(mut crc: u8) -> u8 {
    let mut bit = 0;
    while bit < 8 {
        crc = crc << 1 ^ (crc >> 7) * POLYNOMIAL;
        bit += 1;
    }
    crc
}

pub fn checksum(bytes: &[u8]) -> u8 {
    bytes.iter().fold(START, |crc, byte| TABLE[usize::from(crc ^ byte)])
}

fn is_right(part: &[u8]) -> bool {
    checksum(&part[1..]) == part[0]
}

/// The last sector that the directory lists, or the number that refuses it.
pub fn last_sector(image: &[u8]) -> Result<u8, u8> {
    if !is_image(image) {
        return Err(11);
    }
    let announcing = image[ANNOUNCING];
    let (last, right) = match (announcing >> 7, announcing & 3, image.len()) {
        (1, 1, _) => (15, is_right(&image[FIRST])),
        (1, 2, 4096) => (39, is_right(&image[FIRST]) && is_right(&image[SECOND])),
        _ => return Err(15),
    };
    if right {
        Ok(last)
    } else {
        Err(16)
    }
}

/// Where the two bytes of a sector's entry stand.
pub fn place_of(sector: u8) -> usize {
    let sector = usize::from(sector);
    if sector < 16 {
        FIRST.start + 2 * sector
    } else {
        SECOND.start + 2 * (sector - 16)
    }
}

pub fn lookup(image: &[u8], application: u32) -> Lookup {
    let last = match last_sector(image) {
        Ok(last) => last,
        Err(number) => return Lookup { number, sector: None, count: 0 },
    };
    let mut count = 0;
    for sector in (1..=last).filter(|sector| *sector != 16) {
        count += 1;
        let at = place_of(sector);
        if u32::from(u16::from_le_bytes([image[at], image[at + 1]])) == application {
            return Lookup { number: 0, sector: Some(sector), count };
        }
    }
    Lookup { number: 0, sector: None, count }
}

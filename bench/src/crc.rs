//! CRC_A of ISO/IEC 14443-3, a byte at a time by a table that the compiler makes bit by bit.

pub type Seal = [u8; 2];

const START: u16 = 0x6363;
const POLYNOMIAL: u16 = 0x8408;
const TABLE: [u16; 256] = table();

const fn table() -> [u16; 256] {
    let mut table = [0; 256];
    let mut byte = 0;
    while byte < 256 {
        table[byte] = eight_shifts(byte as u16);
        byte += 1;
    }
    table
}

const fn eight_shifts(mut crc: u16) -> u16 {
    let mut bit = 0;
    while bit < 8 {
        crc = (crc >> 1) ^ ((crc & 1) * POLYNOMIAL);
        bit += 1;
    }
    crc
}

/// The checksum as it goes over the air.
pub fn seal_of(bytes: &[u8]) -> Seal {
    let crc = bytes.iter().fold(START, |crc, byte| crc >> 8 ^ TABLE[usize::from(crc as u8 ^ byte)]);
    crc.to_le_bytes()
}

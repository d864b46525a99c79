//! The issuing desk's calls: a directory and a sector's access bytes, written and read back. `include/tirlwheel.h` says what each number means.

use crate::ffi;

/// A directory as it was read: the number (0 where it was read), the version (0 for a refusal), the info bytes and the bytes of the
/// list, with zeros where there is nothing.
#[derive(Clone, Copy, Debug, PartialEq, Eq)]
pub struct Directory {
    pub number: u8,
    pub version: u8,
    pub infos: [u8; 2],
    pub numbers: [u8; 76],
}

impl Directory {
    /// The bytes of the version's numbers: what [`write_directory`] takes.
    pub fn list(&self) -> &[u8] {
        &self.numbers[..match self.version {
            0 => 0,
            1 => 30,
            _ => 76,
        }]
    }

    /// The application number of a sector; none for one that has no entry in this directory.
    pub fn number_of(&self, sector: u8) -> Option<u16> {
        let place = match sector {
            1..=15 => usize::from(sector) - 1,
            17..=39 => usize::from(sector) - 2,
            _ => return None,
        };
        let bytes = self.list().get(2 * place..2 * place + 2)?;
        Some(u16::from_le_bytes([bytes[0], bytes[1]]))
    }
}

/// The directory of an image, written from its info bytes and its numbers, two bytes each, the low one first: 30 bytes for version 1, 76
/// for version 2. Gives the number: 0, 11, 15 or 27.
pub fn write_directory(image: &mut [u8], infos: [u8; 2], numbers: &[u8]) -> u8 {
    // SAFETY: the pointers come from slices of those lengths, and from an array of its own.
    let result = unsafe {
        ffi::tirlwheel_write_directory(
            image.as_mut_ptr(),
            image.len(),
            &infos,
            numbers.as_ptr(),
            numbers.len(),
        )
    };
    result as u8
}

/// The directory of an image, read in full. Its number is 0, 11, 15 or 16.
pub fn read_directory(image: &[u8]) -> Directory {
    let (mut infos, mut numbers) = ([0; 2], [0; 76]);
    // SAFETY: the pointer comes from a slice of that length, the others from arrays of their own.
    let result = unsafe {
        ffi::tirlwheel_read_directory(image.as_ptr(), image.len(), &mut infos, &mut numbers)
    };
    let [number, version, ..] = result.to_le_bytes();
    Directory {
        number,
        version,
        infos,
        numbers,
    }
}

/// The access bytes of a sector, written from the bits of its four groups: C1 C2 C3 as a number each, the trailer's last. Gives the
/// number: 0, 11, 2 or 28.
pub fn write_access(image: &mut [u8], sector: u32, bits: [u8; 4]) -> u8 {
    // SAFETY: the pointer comes from a slice of that length, the other from an array of its own.
    let result =
        unsafe { ffi::tirlwheel_write_access(image.as_mut_ptr(), image.len(), sector, &bits) };
    result as u8
}

/// The bits of a sector's four groups, or the number that refuses them: 11, 2, or 5 where the sector is blocked.
pub fn read_access(image: &[u8], sector: u32) -> Result<[u8; 4], u8> {
    let mut bits = [0; 4];
    // SAFETY: as for writing them.
    let result =
        unsafe { ffi::tirlwheel_read_access(image.as_ptr(), image.len(), sector, &mut bits) };
    match result as u8 {
        0 => Ok(bits),
        number => Err(number),
    }
}

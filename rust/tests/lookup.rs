// Lookups through the boundary: both versions, each refusal, the order of the refusals, and numbers that no entry can hold.
use tirlwheel::{lookup, Lookup};

// The checksum bit by bit, as the note says it: the library's own is not asked.
fn checksum(bytes: &[u8]) -> u8 {
    let mut register = 0xC7u8;
    for byte in bytes {
        register ^= byte;
        for _ in 0..8 {
            register = register << 1 ^ (register >> 7) * 0x1D;
        }
    }
    register
}

fn seal(image: &mut [u8], from: usize, end: usize) {
    image[from] = checksum(&image[from + 1..end]);
}

// Every sector s holds the number 4800h + s, with the info bytes 01h and 02h.
fn card(size: usize, announcing: u8) -> Vec<u8> {
    let mut image = vec![0; size];
    image[57] = announcing;
    for sector in 1..16 {
        image[16 + 2 * sector..18 + 2 * sector].copy_from_slice(&[sector as u8, 0x48]);
    }
    image[17] = 1;
    seal(&mut image, 16, 48);
    if size == 4096 {
        for sector in 17..40 {
            let at = 1024 + 2 * (sector - 16);
            image[at..at + 2].copy_from_slice(&[sector as u8, 0x48]);
        }
        image[1025] = 2;
        seal(&mut image, 1024, 1072);
    }
    image
}

fn found(sector: u8, count: u8) -> Lookup {
    Lookup {
        number: 0,
        sector: Some(sector),
        count,
    }
}

fn nowhere(count: u8) -> Lookup {
    Lookup {
        number: 0,
        sector: None,
        count,
    }
}

fn refused(number: u8) -> Lookup {
    Lookup {
        number,
        sector: None,
        count: 0,
    }
}

// The example that the note prints, and the string by which checksums are compared.
#[test]
fn the_checksum_of_the_test_is_the_notes() {
    let mut note = [0; 31];
    note[..7].copy_from_slice(&[1, 1, 8, 1, 8, 1, 8]);
    note[13..23].copy_from_slice(&[4, 0, 3, 0x10, 3, 0x10, 2, 0x10, 2, 0x10]);
    note[29..].copy_from_slice(&[0x11, 0x30]);
    assert_eq!(checksum(&note), 0x89);
    assert_eq!(checksum(b"123456789"), 0x99);
}

#[test]
fn every_sector_of_both_versions() {
    for sector in 1..16 {
        for (size, announcing) in [(1024, 0xC1), (4096, 0x81), (4096, 0xC2), (4096, 0xBE)] {
            assert_eq!(
                lookup(&card(size, announcing), 0x4800 + u32::from(sector)),
                found(sector, sector)
            );
        }
    }
    for sector in 17..40 {
        let wanted = 0x4800 + u32::from(sector);
        assert_eq!(lookup(&card(4096, 0xC2), wanted), found(sector, sector - 1));
        assert_eq!(lookup(&card(4096, 0xC1), wanted), nowhere(15));
    }
}

#[test]
fn nowhere_looks_at_every_entry() {
    for wanted in [0, 0x4810, 0x0148, 0x14801, u32::MAX] {
        assert_eq!(lookup(&card(1024, 0xC1), wanted), nowhere(15));
        assert_eq!(lookup(&card(4096, 0xC2), wanted), nowhere(38));
    }
}

#[test]
fn the_lowest_of_two() {
    let mut image = card(4096, 0xC2);
    image[16 + 2 * 9] = 4;
    image[1024 + 2 * 3] = 4;
    seal(&mut image, 16, 48);
    seal(&mut image, 1024, 1072);
    assert_eq!(lookup(&image, 0x4804), found(4, 4));
}

#[test]
fn no_directory_is_15() {
    for announcing in [0x00, 0x69, 0x41, 0x80, 0xC0, 0xC3] {
        assert_eq!(lookup(&card(1024, announcing), 0x4801), refused(15));
        assert_eq!(lookup(&card(4096, announcing), 0x4801), refused(15));
    }
    assert_eq!(lookup(&card(1024, 0xC2), 0x4801), refused(15));
}

// One bit anywhere in a part, its checksum and its info byte included; sector 16 counts for version 2 alone.
#[test]
fn a_wrong_checksum_is_16() {
    for at in (16..48).chain(1024..1072) {
        let (mut one, mut two) = (card(4096, 0xC1), card(4096, 0xC2));
        one[at] ^= 0x10;
        two[at] ^= 0x10;
        assert_eq!(lookup(&two, 0x4801), refused(16));
        if at < 48 {
            assert_eq!(lookup(&one, 0x4801), refused(16));
        } else {
            assert_eq!(lookup(&one, 0x4801), found(1, 1));
        }
    }
}

// 11 comes before 15, and 15 before 16.
#[test]
fn the_order_of_the_refusals() {
    let mut image = card(4096, 0xC2);
    image[20] ^= 1;
    assert_eq!(lookup(&image, 0x4801), refused(16));
    image[57] = 0x69;
    assert_eq!(lookup(&image, 0x4801), refused(15));
    for size in [0, 1023, 1025, 4095] {
        assert_eq!(lookup(&image[..size], 0x4801), refused(11));
    }
}

// The issuing desk through the boundary: directories and access bytes written and read back, what stays, the refusals and their order.
use tirlwheel::{
    lookup, read_access, read_directory, write_access, write_directory, Lookup, Session,
};

// The checksum bit by bit, as the note says it: the library's own is not asked.
fn checksum(bytes: &[u8]) -> u8 {
    let mut register = 0xC7u8;
    for byte in bytes {
        register ^= byte;
        for _ in 0..8 {
            register = register << 1 ^ (register >> 7) * 0x1D;
        }
    }
    register
}

// Every byte is another than its neighbours, and the announcing byte is the given one.
fn card(size: usize, announcing: u8) -> Vec<u8> {
    let mut image: Vec<u8> = (0..size).map(|i| (i % 251) as u8).collect();
    image[57] = announcing;
    image
}

// The list of so many numbers, all different.
fn list(count: usize) -> Vec<u8> {
    (0..count).flat_map(|n| [n as u8, 0x48 + n as u8]).collect()
}

// What has to stand there, put together by hand.
fn written(before: &[u8], infos: [u8; 2], numbers: &[u8], announcing: u8) -> Vec<u8> {
    let mut image = before.to_vec();
    let parts = [
        (16, &numbers[..30], infos[0]),
        (1024, &numbers[30..], infos[1]),
    ];
    for (start, numbers, info) in parts.into_iter().filter(|part| !part.1.is_empty()) {
        let end = start + 2 + numbers.len();
        image[start + 1] = info;
        image[start + 2..end].copy_from_slice(numbers);
        image[start] = checksum(&image[start + 1..end]);
    }
    image[57] = announcing;
    image
}

// Both versions, over every announcing byte: bits 6 to 2 stay, and so does every byte elsewhere.
#[test]
fn a_directory_is_written_and_read_back() {
    for (size, count, version) in [(1024, 15, 1), (4096, 15, 1), (4096, 38, 2)] {
        for byte in 0..=255 {
            let (before, infos, numbers) = (card(size, byte), [byte, !byte], list(count));
            let mut image = before.clone();
            assert_eq!(write_directory(&mut image, infos, &numbers), 0);
            let announcing = byte & 0x7C | 0x80 | version;
            assert_eq!(image, written(&before, infos, &numbers, announcing));
            let read = read_directory(&image);
            assert_eq!((read.number, read.version), (0, version));
            assert_eq!(read.list(), numbers);
            assert!(read.numbers[numbers.len()..].iter().all(|byte| *byte == 0));
            assert_eq!(read.infos, [byte, if version == 2 { !byte } else { 0 }]);
            let mut again = image.clone();
            assert_eq!(write_directory(&mut again, read.infos, read.list()), 0);
            assert_eq!(again, image);
        }
    }
}

// Each entry is found by the lookup, and read as the entry of its sector.
#[test]
fn the_lookup_finds_what_was_written() {
    let mut image = card(4096, 0x69);
    assert_eq!(write_directory(&mut image, [1, 17], &list(38)), 0);
    assert_eq!(image[57], 0xEA);
    let read = read_directory(&image);
    let mut place = 0;
    for sector in 0..=255 {
        if !matches!(sector, 1..=15 | 17..=39) {
            assert_eq!(read.number_of(sector), None);
            continue;
        }
        let number = u16::from_le_bytes([place, 0x48 + place]);
        place += 1;
        assert_eq!(read.number_of(sector), Some(number));
        let found = Lookup {
            number: 0,
            sector: Some(sector),
            count: place,
        };
        assert_eq!(lookup(&image, number.into()), found);
    }
    assert_eq!(write_directory(&mut image, [1, 17], &list(15)), 0);
    assert_eq!(read_directory(&image).number_of(17), None);
}

// 11, then 27; nothing changes, and nothing is read of a directory that is refused.
#[test]
fn refusals_of_a_directory() {
    for size in [0, 1023, 1025, 4095, 4097, 65536 + 1024] {
        let before = card(size.max(58), 0xC1)[..size].to_vec();
        for length in [0, 30, 76] {
            let mut image = before.clone();
            assert_eq!(write_directory(&mut image, [0; 2], &list(38)[..length]), 11);
            assert_eq!(image, before);
        }
        assert_eq!(read_directory(&before).number, 11);
    }
    for size in [1024, 4096] {
        let before = card(size, 0x69);
        for length in (0..=300).filter(|n| *n != 30 && (*n != 76 || size == 1024)) {
            let mut image = before.clone();
            assert_eq!(
                write_directory(&mut image, [0; 2], &list(150)[..length]),
                27
            );
            assert_eq!(image, before);
        }
        let mut image = before;
        for (announcing, number) in [(0x69, 15), (0xE9, 16)] {
            image[57] = announcing;
            let read = read_directory(&image);
            assert_eq!((read.number, read.version), (number, 0));
            assert_eq!((read.infos, read.numbers), ([0; 2], [0; 76]));
            assert!(read.list().is_empty());
        }
    }
}

fn trailer_at(sector: usize) -> usize {
    16 * if sector < 32 {
        4 * sector + 3
    } else {
        128 + 16 * (sector - 32) + 15
    }
}

// All 4,096 bits of four groups, in a sector of each size; every other byte stays.
#[test]
fn access_bytes_are_written_and_read_back() {
    for (size, sector) in [(1024, 0), (1024, 15), (4096, 31), (4096, 39)] {
        let before = card(size, 0x69);
        for all in 0..4096 {
            let bits = [all >> 9, all >> 6 & 7, all >> 3 & 7, all & 7].map(|bits| bits as u8);
            let mut image = before.clone();
            assert_eq!(write_access(&mut image, sector, bits), 0);
            assert_eq!(read_access(&image, sector), Ok(bits));
            let mut expected = before.clone();
            let at = trailer_at(sector as usize) + 6;
            for byte in &mut expected[at..at + 3] {
                *byte = 0;
            }
            for (group, bits) in bits.iter().enumerate() {
                let [c1, c2, c3] = [bits >> 2 & 1, bits >> 1 & 1, bits & 1];
                expected[at] |= (1 - c2) << (4 + group) | (1 - c1) << group;
                expected[at + 1] |= c1 << (4 + group) | (1 - c3) << group;
                expected[at + 2] |= c3 << (4 + group) | c2 << group;
            }
            assert_eq!(image, expected);
        }
    }
}

// 11, then 2, then 28; sectors that are one in their low byte too.
#[test]
fn refusals_of_access_bytes() {
    for size in [0, 1023, 1025, 4095, 4097] {
        let mut image = vec![0; size];
        assert_eq!(write_access(&mut image, 40, [8; 4]), 11);
        assert_eq!(read_access(&image, 40), Err(11));
    }
    for (size, sectors) in [(1024, 16), (4096, 40)] {
        let before = card(size, 0x69);
        for sector in [sectors, 255, 256, 257, 65536, 1 << 24, u32::MAX] {
            let mut image = before.clone();
            assert_eq!(write_access(&mut image, sector, [8; 4]), 2);
            assert_eq!(image, before);
            assert_eq!(read_access(&image, sector), Err(2));
        }
        for group in 0..4 {
            for above in 8..=255 {
                let (mut image, mut bits) = (before.clone(), [7; 4]);
                bits[group] = above;
                assert_eq!(write_access(&mut image, sectors - 1, bits), 28);
                assert_eq!(image, before);
            }
        }
    }
}

// A blocked sector reads as 5, refuses a frame, and is open again once its access bytes are written.
#[test]
fn a_blocked_sector_is_made_well_formed() {
    let mut image = vec![0; 1024];
    assert_eq!(read_access(&image, 2), Err(5));
    let authenticate = [0x60, 8, 0, 0, 0, 0, 0, 0];
    let mut session = Session::FRESH;
    assert_eq!(session.frame(&mut image, &authenticate).number, 5);
    assert_eq!(write_access(&mut image, 2, [0, 0, 0, 1]), 0);
    assert_eq!(image[11 * 16 + 6..11 * 16 + 9], [0xFF, 0x07, 0x80]);
    assert_eq!(session.frame(&mut image, &authenticate).number, 0);
}

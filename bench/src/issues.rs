//! The differential test of the issuing desk: directories and access bytes written and read in random images, with lists of any length, sectors that no card
//! has and bits that are none; the results, the images and what was lent are compared.

use crate::calls::{Card, LIBRARY, RUST};
use crate::directory::ANNOUNCING;
use crate::images;
use crate::issuing::{GroupBits, Infos, FIRST_BYTES, NUMBERS_BYTES};
use crate::layout::{bytes_of, sectors, trailer_of};
use crate::lookups;
use crate::random::Random;
use crate::rights::AccessBits;
use std::collections::BTreeMap;

/// From this many calls on, everything must have been met often enough.
const FULL_RUN: u64 = 100_000;
const ENOUGH: u64 = 20;
/// Beside a byte less and more than each right length: as many bytes as a list has numbers, and lengths that are right where only one or two bytes are looked at.
const WRONG_LENGTHS: [usize; 16] = [0, 1, 15, 28, 29, 31, 32, 38, 46, 74, 75, 77, 78, 30 + 256, 76 + 256, 76 + 65536];
/// The first sectors that no card or no small card has, and what is a sector where only one or two bytes are looked at.
const SECTORS: [u32; 12] = [15, 16, 39, 40, 127, 128, 255, 256, 256 + 7, 65536 + 7, 1 << 31, u32::MAX];

enum Call {
    WriteDirectory { infos: Infos, numbers: Vec<u8> },
    ReadDirectory,
    WriteAccess { sector: u32, bits: GroupBits },
    ReadAccess { sector: u32 },
}

/// The result, the image and all that was lent, as they are after a call.
#[derive(PartialEq)]
struct After {
    result: u32,
    image: Vec<u8>,
    infos: Infos,
    numbers: [u8; NUMBERS_BYTES],
    bits: GroupBits,
}

impl Call {
    fn any(random: &mut Random) -> Call {
        match random.below(4) {
            0 => Call::WriteDirectory { infos: random.bytes(), numbers: any_numbers(random) },
            1 => Call::ReadDirectory,
            2 => Call::WriteAccess { sector: any_sector(random), bits: any_bits(random) },
            _ => Call::ReadAccess { sector: any_sector(random) },
        }
    }

    /// What is lent holds the given bytes before the call.
    fn make(&self, card: &Card, image: &[u8], lent: [u8; NUMBERS_BYTES]) -> After {
        let (mut image, mut infos, mut numbers, mut bits) = (image.to_vec(), [lent[0], lent[1]], lent, [lent[2], lent[3], lent[4], lent[5]]);
        let result = match self {
            Call::WriteDirectory { infos, numbers } => card.write_directory(&mut image, infos, numbers),
            Call::ReadDirectory => card.read_directory(&image, &mut infos, &mut numbers),
            Call::WriteAccess { sector, bits } => card.write_access(&mut image, *sector, bits),
            Call::ReadAccess { sector } => card.read_access(&image, *sector, &mut bits),
        };
        After { result, image, infos, numbers, bits }
    }

    fn name(&self) -> &'static str {
        match self {
            Call::WriteDirectory { .. } => "write directory",
            Call::ReadDirectory => "read directory",
            Call::WriteAccess { .. } => "write access",
            Call::ReadAccess { .. } => "read access",
        }
    }

    /// What was met: the call with its result, and what stood in the image before.
    fn met(&self, before: &[u8], after: &After) -> Vec<String> {
        let mut names = vec![format!("{}, {}", self.name(), outcome(after.result))];
        match self {
            Call::WriteDirectory { numbers, .. } if after.result == 0 => {
                names.push(format!("written, bit 6 {}", before[ANNOUNCING] >> 6 & 1));
                names.push(format!("written, {} on {} bytes", if numbers.len() == FIRST_BYTES { "version 1" } else { "version 2" }, before.len()));
                if numbers.len() == FIRST_BYTES && before.len() == 4096 && before[ANNOUNCING] >> 7 == 1 && before[ANNOUNCING] & 3 == 2 {
                    names.push("written, version 1 over version 2".to_string());
                }
            }
            Call::WriteDirectory { numbers, .. } if after.result == 27 => {
                names.push(format!("27, {}", if numbers.len() == NUMBERS_BYTES { "38 numbers on a 1K card" } else { "no list's length" }));
                names.extend((numbers.len() % 2 == 1).then(|| "27, an odd length".to_string()));
            }
            Call::WriteAccess { sector, bits } if after.result == 0 => {
                let blocked = AccessBits::of(bytes_of(before, trailer_of(*sector as u8))).is_none();
                names.push(format!("written, sector that was {}", if blocked { "blocked" } else { "open" }));
                names.push(format!("sector {sector:2}"));
                names.extend(bits.iter().enumerate().map(|(group, bits)| format!("group {group} with {bits}")));
            }
            Call::WriteAccess { sector, bits } if after.result == 2 => {
                names.extend(bits.iter().any(|bits| *bits > 7).then(|| "2 before 28".to_string()));
                names.extend((*sector > 255 && (*sector as u8) < sectors(before)).then(|| "2, its low byte is a sector".to_string()));
            }
            _ => (),
        }
        names
    }
}

fn outcome(result: u32) -> String {
    match result.to_le_bytes() {
        [0, 0, 0, 0] => "done".to_string(),
        [0, version, 0, 0] => format!("version {version}"),
        _ => format!("refused {result:2}"),
    }
}

/// Gives whether no difference was met (and, in a full run, whether enough was covered).
pub fn run(seed: u64, count: u64) -> bool {
    let (mut random, mut met, mut calls) = (Random::new(seed), expected(), 0);
    while calls < count {
        let mut image = any_image(&mut random);
        let call = Call::any(&mut random);
        // What was written is read back, in the image that was left.
        for call in [Some(&call), read_back(&call).as_ref()].into_iter().flatten() {
            let lent = random.bytes();
            let (library, rust) = (call.make(&LIBRARY, &image, lent), call.make(&RUST, &image, lent));
            calls += 1;
            if library != rust {
                print_difference(call, &image, &library, &rust);
                println!("difference at {} {calls} of seed {seed}", call.name());
                return false;
            }
            call.met(&image, &library).into_iter().for_each(|name| *met.entry(name).or_insert(0) += 1);
            image = library.image;
        }
    }
    println!("seed {seed}: {calls} calls of the issuing desk, no difference");
    print_met(&met);
    let thin: Vec<&String> = met.iter().filter(|(_, times)| **times < ENOUGH).map(|(name, _)| name).collect();
    thin.iter().for_each(|name| println!("  too seldom: {name}"));
    thin.is_empty() || count < FULL_RUN
}

fn read_back(call: &Call) -> Option<Call> {
    match call {
        Call::WriteDirectory { .. } => Some(Call::ReadDirectory),
        Call::WriteAccess { sector, .. } => Some(Call::ReadAccess { sector: *sector }),
        _ => None,
    }
}

fn print_met(met: &BTreeMap<String, u64>) {
    let many = |name: &str| name.starts_with("sector") || name.starts_with("group");
    met.iter().filter(|(name, _)| !many(name)).for_each(|(name, times)| println!("  {name:36} {times:9}"));
    for (start, title) in [("sector", "each of the 40 sectors written, at least"), ("group", "each group with each bits, at least")] {
        let least = met.iter().filter(|(name, _)| name.starts_with(start)).map(|(_, times)| times).min();
        println!("  {title:40} {:5}", least.unwrap());
    }
}

fn print_difference(call: &Call, image: &[u8], library: &After, rust: &After) {
    println!("  image of {} bytes, announcing byte {:02X?}, results {:X} and {:X}", image.len(), image.get(ANNOUNCING), library.result, rust.result);
    match call {
        Call::WriteDirectory { infos, numbers } => println!("  {} bytes of numbers, info bytes {infos:02X?}", numbers.len()),
        Call::WriteAccess { sector, bits } => println!("  sector {sector}, bits {bits:02X?}"),
        Call::ReadAccess { sector } => println!("  sector {sector}"),
        Call::ReadDirectory => (),
    }
    for at in (0..image.len()).filter(|at| library.image[*at] != rust.image[*at]) {
        println!("  byte {at}: was {:02X}, library {:02X}, Rust {:02X}", image[at], library.image[at], rust.image[at]);
    }
    println!("  library {:02X?} {:02X?} {:02X?}", library.infos, library.numbers, library.bits);
    println!("  Rust    {:02X?} {:02X?} {:02X?}", rust.infos, rust.numbers, rust.bits);
}

/// Everything that has to be met.
fn expected() -> BTreeMap<String, u64> {
    let names = [
        "write directory, done",
        "write directory, refused 11",
        "write directory, refused 27",
        "read directory, version 1",
        "read directory, version 2",
        "read directory, refused 11",
        "read directory, refused 15",
        "read directory, refused 16",
        "write access, done",
        "write access, refused 11",
        "write access, refused  2",
        "write access, refused 28",
        "read access, done",
        "read access, refused 11",
        "read access, refused  2",
        "read access, refused  5",
        "written, bit 6 0",
        "written, bit 6 1",
        "written, version 1 on 1024 bytes",
        "written, version 1 on 4096 bytes",
        "written, version 2 on 4096 bytes",
        "written, version 1 over version 2",
        "written, sector that was blocked",
        "written, sector that was open",
        "27, 38 numbers on a 1K card",
        "27, no list's length",
        "27, an odd length",
        "2 before 28",
        "2, its low byte is a sector",
    ];
    let sectors = (0..40).map(|sector| format!("sector {sector:2}"));
    let groups = (0..4).flat_map(|group| (0..8).map(move |bits| format!("group {group} with {bits}")));
    names.map(String::from).into_iter().chain(sectors).chain(groups).map(|name| (name, 0)).collect()
}

/// Half of the images have a directory, right or not.
fn any_image(random: &mut Random) -> Vec<u8> {
    if random.percent(50) {
        lookups::any_image(random)
    } else {
        images::any_size(random)
    }
}

fn any_numbers(random: &mut Random) -> Vec<u8> {
    let length = match random.below(10) {
        0..=3 => FIRST_BYTES,
        4..=7 => NUMBERS_BYTES,
        8 => random.pick(&WRONG_LENGTHS),
        _ => random.below(100),
    };
    let mut numbers = vec![0; length];
    if random.percent(80) {
        random.fill(&mut numbers);
    }
    numbers
}

fn any_sector(random: &mut Random) -> u32 {
    match random.below(10) {
        0 => random.pick(&SECTORS),
        1 => random.word() as u32,
        2 => random.below(256) as u32,
        _ => random.below(40) as u32,
    }
}

fn any_bits(random: &mut Random) -> GroupBits {
    let mut bits = random.bytes().map(|bits: u8| bits & 7);
    if random.percent(15) {
        let wrong = random.byte();
        bits[random.below(4)] = random.pick(&[8, 0x10, 0x80, 0xFF, wrong]);
    }
    bits
}

const _: () = assert!(FIRST_BYTES == 2 * 15 && NUMBERS_BYTES == 2 * 38);

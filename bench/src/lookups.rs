//! The differential test of the lookup: random images, announced and not, and numbers that they hold and do not; both answers compared.

use crate::calls::{LIBRARY, RUST};
use crate::directory::{checksum, place_of, ANNOUNCING, FIRST, SECOND};
use crate::images;
use crate::random::Random;
use std::collections::BTreeMap;
use std::ops::Range;

const LOOKUPS_PER_IMAGE: usize = 10;
/// From this many lookups on, everything must have been met often enough.
const FULL_RUN: u64 = 100_000;
const ENOUGH: u64 = 20;
const ANNOUNCED: [u8; 6] = [0xC1, 0xC2, 0x81, 0x82, 0xBD, 0xFE];
const NUMBERS: [u16; 6] = [0x0000, 0x4801, 0x0148, 0xE103, 0xFFFF, 0x4802];

/// Gives whether no difference was met (and, in a full run, whether enough was covered).
pub fn run(seed: u64, count: u64) -> bool {
    let (mut random, mut met, mut calls) = (Random::new(seed), expected(), 0);
    while calls < count {
        let image = any_image(&mut random);
        for _ in 0..LOOKUPS_PER_IMAGE {
            let wanted = any_number(&mut random, &image);
            let (library, rust) = (LIBRARY.lookup(&image, wanted), RUST.lookup(&image, wanted));
            calls += 1;
            if library != rust {
                println!("  image of {} bytes, announcing byte {:02X?}", image.len(), image.get(ANNOUNCING));
                println!("  parts {:02X?} {:02X?}", image.get(FIRST), image.get(SECOND));
                println!("  wanted {wanted:X}: library {library:08X}, Rust {rust:08X}");
                println!("difference at lookup {calls} of seed {seed}");
                return false;
            }
            met.entry(name_of(library)).and_modify(|times| *times += 1).or_insert(1);
        }
    }
    println!("seed {seed}: {calls} lookups, no difference");
    met.iter().filter(|(name, _)| !name.starts_with("sector")).for_each(|(name, times)| println!("  {name:36} {times:9}"));
    let least = met.iter().filter(|(name, _)| name.starts_with("sector")).map(|(_, times)| times).min();
    println!("  {:36} {:9}", "each of the 38 sectors, at least", least.unwrap());
    let thin: Vec<&String> = met.iter().filter(|(_, times)| **times < ENOUGH).map(|(name, _)| name).collect();
    thin.iter().for_each(|name| println!("  too seldom: {name}"));
    thin.is_empty() || count < FULL_RUN
}

fn name_of(result: u32) -> String {
    match result.to_le_bytes() {
        [0, 1, sector, _] => format!("sector {sector:2}"),
        [0, _, _, count] => format!("nowhere among {count}"),
        [number, ..] => format!("refused {number}"),
    }
}

/// Everything that has to be met.
fn expected() -> BTreeMap<String, u64> {
    let sectors = (1..40u32).filter(|sector| *sector != 16).map(|sector| name_of(0x0100 | sector << 16));
    let others = [11, 15, 16, 15 << 24, 38 << 24].map(name_of);
    sectors.chain(others).map(|name| (name, 0)).collect()
}

pub fn any_image(random: &mut Random) -> Vec<u8> {
    let mut image = images::any_size(random);
    if image.len() <= ANNOUNCING || random.percent(5) {
        return image;
    }
    if random.percent(90) {
        image[ANNOUNCING] = random.pick(&ANNOUNCED);
    }
    // Few numbers many times, or many numbers.
    let mixed = random.percent(50);
    lay(random, &mut image, FIRST, mixed);
    if image.len() == 4096 {
        lay(random, &mut image, SECOND, mixed);
    }
    image
}

/// Random entries and, in most, a right checksum.
fn lay(random: &mut Random, image: &mut [u8], part: Range<usize>, mixed: bool) {
    if image.len() < part.end {
        return;
    }
    for at in part.clone().step_by(2) {
        let number = if mixed { random.pick(&NUMBERS) } else { random.word() as u16 };
        image[at..at + 2].copy_from_slice(&number.to_le_bytes());
    }
    image[part.start] = checksum(&image[part.start + 1..part.end]);
    if random.percent(8) {
        image[part.start + random.below(part.len())] ^= 1 << random.below(8);
    }
}

/// A number of some sector's entry, of the few, any other, or one that no entry can hold.
fn any_number(random: &mut Random, image: &[u8]) -> u32 {
    let at = place_of(1 + random.below(39) as u8);
    match random.below(10) {
        0 => random.word() as u32,
        1 => u32::from(random.word() as u16),
        2 => 0x10000 | u32::from(random.pick(&NUMBERS)),
        3 | 4 => u32::from(random.pick(&NUMBERS)),
        _ if at + 2 <= image.len() => u32::from(u16::from_le_bytes([image[at], image[at + 1]])),
        _ => 0,
    }
}

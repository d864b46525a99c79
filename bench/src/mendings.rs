//! The differential test of mending: random images with torn, sound and foreign blocks, names in any order and again; the numbers, the images and the reports are compared.

use crate::calls::{LIBRARY, RUST};
use crate::images;
use crate::layout::{bytes_of_mut, has_block, is_image, is_trailer, BlockBytes, BLOCK_BYTES};
use crate::mending::{Report, MOST_NAMES, REPORT_BYTES};
use crate::random::Random;
use std::collections::BTreeMap;

/// From this many calls on, everything must have been met often enough.
const FULL_RUN: u64 = 100_000;
const ENOUGH: u64 = 20;

/// Gives whether no difference was met (and, in a full run, whether enough was covered).
pub fn run(seed: u64, count: u64) -> bool {
    let (mut random, mut met) = (Random::new(seed), expected());
    for call in 1..=count {
        let mut image = images::any_size(&mut random);
        let names = any_names(&mut random);
        tear(&mut random, &mut image, &names);
        let (mut library_image, mut rust_image) = (image.clone(), image.clone());
        let mut library_report: Report = random.bytes();
        let mut rust_report = library_report;
        let library = LIBRARY.mend(&mut library_image, &names, &mut library_report);
        let rust = RUST.mend(&mut rust_image, &names, &mut rust_report);
        if library != rust || library_image != rust_image || library_report != rust_report {
            print_difference(&image, &names, (library, &library_image, &library_report), (rust, &rust_image, &rust_report));
            println!("difference at mending {call} of seed {seed}");
            return false;
        }
        *met.entry(format!("call {library:2}")).or_insert(0) += 1;
        let rows = if library == 0 { names.len() } else { 0 };
        for row in library_report.chunks(3).take(rows) {
            *met.entry(name_of(row)).or_insert(0) += 1;
            let changed = u16::from_le_bytes([row[1], row[2]]);
            (0..BLOCK_BYTES).filter(|i| changed >> i & 1 == 1).for_each(|i| *met.entry(format!("told of byte {i:2}")).or_insert(0) += 1);
        }
    }
    println!("seed {seed}: {count} calls to mend, no difference");
    met.iter().filter(|(name, _)| !name.starts_with("told")).for_each(|(name, times)| println!("  {name:36} {times:9}"));
    let least = met.iter().filter(|(name, _)| name.starts_with("told")).map(|(_, times)| times).min();
    println!("  {:36} {:9}", "each of the 16 bytes told, at least", least.unwrap());
    let thin: Vec<&String> = met.iter().filter(|(_, times)| **times < ENOUGH).map(|(name, _)| name).collect();
    thin.iter().for_each(|name| println!("  too seldom: {name}"));
    thin.is_empty() || count < FULL_RUN
}

fn print_difference(image: &[u8], names: &[u8], library: (u32, &[u8], &Report), rust: (u32, &[u8], &Report)) {
    println!("  image of {} bytes, {} names, numbers {} and {}", image.len(), names.len(), library.0, rust.0);
    for (place, name) in names.iter().enumerate().take(MOST_NAMES) {
        let row = 3 * place..3 * place + 3;
        if library.2[row.clone()] != rust.2[row.clone()] {
            println!("  block {name}: library {:02X?}, Rust {:02X?}", &library.2[row.clone()], &rust.2[row]);
        }
    }
    for at in (0..image.len()).filter(|at| library.1[*at] != rust.1[*at]) {
        println!("  byte {at}: was {:02X}, library {:02X}, Rust {:02X}", image[at], library.1[at], rust.1[at]);
    }
}

fn name_of(row: &[u8]) -> String {
    match *row {
        [0, 0, 0] => "block sound".to_string(),
        [0, ..] => "block mended".to_string(),
        [number, ..] => format!("block {number:2}"),
        [] => unreachable!(),
    }
}

/// Everything that has to be met.
fn expected() -> BTreeMap<String, u64> {
    let calls = [0, 11, 30].map(|number| format!("call {number:2}"));
    let blocks = [[2, 0, 0], [6, 0, 0], [19, 0, 0], [0, 0, 0], [0, 1, 0]].map(|row| name_of(&row));
    let told = (0..BLOCK_BYTES).map(|i| format!("told of byte {i:2}"));
    calls.into_iter().chain(blocks).chain(told).map(|name| (name, 0)).collect()
}

/// Few names, or as many as the report takes and one more; any addresses, those of a small card, and names that come again.
fn any_names(random: &mut Random) -> Vec<u8> {
    let count = match random.below(20) {
        0 => MOST_NAMES,
        1 => MOST_NAMES + 1,
        2 => random.below(2 * MOST_NAMES),
        _ => random.below(12),
    };
    let mut names = vec![];
    for _ in 0..count {
        let again = !names.is_empty() && random.percent(20);
        let name = if again { random.pick(&names) } else { random.byte() };
        names.push(if random.percent(30) { name % 64 } else { name });
    }
    names
}

/// Most of the named data blocks are torn in some way.
fn tear(random: &mut Random, image: &mut [u8], names: &[u8]) {
    if !is_image(image) {
        return;
    }
    for name in names {
        if has_block(image, *name) && random.percent(if is_trailer(*name) { 10 } else { 70 }) {
            let mut other = images::data(random);
            if random.percent(50) {
                // Neighbours of what stands there: readings that differ in few bytes.
                other = *bytes_of_mut(image, *name);
                other[random.below(BLOCK_BYTES)] ^= 1 << random.below(8);
            }
            torn(random, bytes_of_mut(image, *name), &other);
        }
    }
}

fn torn(random: &mut Random, block: &mut BlockBytes, other: &BlockBytes) {
    match random.below(8) {
        // The card went away after so many bytes.
        0 => {
            let written = random.below(BLOCK_BYTES + 1);
            block[..written].copy_from_slice(&other[..written]);
        }
        // One reading of the value, of another block or of nothing.
        1 | 2 => {
            let at = 4 * random.below(3);
            block[at..at + 4].copy_from_slice(&other[at..at + 4]);
            if random.percent(30) {
                random.fill(&mut block[at..at + 4]);
            }
        }
        // Address bytes, one to four of them, in the same way or each in its own.
        3 | 4 => {
            let (bits, same) = (1 << random.below(8), random.percent(50));
            for at in 12..BLOCK_BYTES {
                if random.percent(40) {
                    block[at] ^= if same { bits } else { 1 << random.below(8) };
                }
            }
        }
        // Single bits.
        _ => {
            for _ in 0..1 + random.below(3) {
                block[random.below(BLOCK_BYTES)] ^= 1 << random.below(8);
            }
        }
    }
}

const _: () = assert!(REPORT_BYTES == 3 * MOST_NAMES);

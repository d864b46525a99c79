//! Whole scripts, lawful and broken, through the library's player call, the proved player program and the Rust player; for either edition.

use crate::calls::{Printout, LIBRARY, PRINTOUT_BYTES, RUST};
use crate::edition::{Edition, USAGES};
use crate::frames;
use crate::images;
use crate::layout::{bytes_of, BlockBytes, BLOCK_BYTES};
use crate::player::{LONGEST_EVENT, MOST_EVENTS};
use crate::random::Random;
use crate::reader::{Reader, Sent};
use crate::turns::{is_last_byte, is_one_bit};
use crate::{card_cover, cover};
use std::collections::BTreeMap;
use std::io::Write;
use std::process::{Command, Stdio};

/// What a full run must have met: each refusal, the script that is one byte too long or too short, the smallest changes.
const KINDS: [&str; 10] =
    ["card 4096", "script 20", "script 21", "script 22", "script 23", "script 24", ONE_BYTE_SHORT, ONE_BYTE_OVER, ONE_BIT, LAST_BYTE];
const OLD_KINDS: [&str; 1] = ["card 1024"];
/// A NAK's line ends with its value; the rest is about the third section.
const EV1_KINDS: [&str; 16] = [
    "script 25",
    "script 26",
    "script 21 for 1024",
    NO_COUNT,
    NO_TYPE,
    "open at the start",
    "locked with 00",
    "locked with 20",
    "locked with 40",
    "locked with 60",
    "17 N0",
    "17 N4",
    "18 N0",
    "18 N4",
    "N0",
    "N4",
];
const ONE_BYTE_SHORT: &str = "script 20 for one byte";
const ONE_BYTE_OVER: &str = "script 24 for one byte";
const NO_COUNT: &str = "script 20 for the count of the lock";
const NO_TYPE: &str = "script 20 for the type of the lock";
const ONE_BIT: &str = "block printed for one bit";
const LAST_BYTE: &str = "block printed for its last byte";
/// So many at the end of a script at most, where nothing hides them.
const MOST_SMALL_CHANGES: usize = 20;
/// From this many scripts on, each kind must have been met often enough.
const FULL_RUN: u64 = 3000;

/// Gives whether all printouts were the same, byte for byte (and, in a full run, whether enough was covered).
pub fn run(edition: Edition, seed: u64, count: u64, player: &str) -> bool {
    let mut random = Random::new(seed);
    let mut met = BTreeMap::from_iter(kinds(edition).into_iter().map(|kind| (kind.to_string(), 0)));
    let expected = met.len();
    let (mut by_rust, mut by_library) = (blank_printout(), blank_printout());
    for script_number in 1..=count {
        let script = any(&mut random, edition);
        let rust = RUST.play(edition, &script.bytes, &mut by_rust);
        let library = LIBRARY.play(edition, &script.bytes, &mut by_library);
        let program = printed_by(player, &script.bytes);
        // The rest of the buffer stays as it was, so the whole buffers agree too.
        if rust != library || by_rust != by_library || by_rust[..rust] != program[..] {
            println!("difference at script {script_number} of seed {seed}");
            print_side("library", &by_library[..library]);
            print_side("player", &program);
            print_side("Rust", &by_rust[..rust]);
            return false;
        }
        for kind in kinds_of(edition, &script, &String::from_utf8_lossy(&program)) {
            *met.entry(kind).or_insert(0) += 1;
        }
    }
    println!("seed {seed}: {count} scripts through the library, the player and the Rust player, no difference");
    met.iter().for_each(|(kind, times)| println!("  {kind:36} {times:9}"));
    count < FULL_RUN || met.len() == expected && met.values().all(|times| *times >= enough(edition))
}

/// An EV1's scripts are of more kinds.
fn enough(edition: Edition) -> u64 {
    match edition {
        Edition::Old => cover::ENOUGH,
        Edition::Ev1 => card_cover::ENOUGH,
    }
}

fn kinds(edition: Edition) -> Vec<&'static str> {
    match edition {
        Edition::Old => [&KINDS[..], &OLD_KINDS].concat(),
        Edition::Ev1 => [&KINDS[..], &EV1_KINDS].concat(),
    }
}

pub fn blank_printout() -> Box<Printout> {
    vec![0; PRINTOUT_BYTES].try_into().unwrap()
}

/// The image's size, or the number of the refusal and what was its cause; and the smallest changes that were printed.
fn kinds_of(edition: Edition, script: &Script, printout: &str) -> Vec<String> {
    let mut lines = printout.lines();
    let first = lines.next().unwrap().split(' ').take(2).collect::<Vec<_>>().join(" ");
    let mut kinds = cause(&first, script);
    if edition == Edition::Ev1 {
        kinds.extend(ev1_kinds_of(script, &first, printout));
    }
    kinds.push(first);
    for (block, new) in lines.filter_map(|line| line.strip_prefix("block ")?.split_once(' ')) {
        let (old, new) = (bytes_of(&script.bytes[2..], block.parse().unwrap()), from_hex(new));
        kinds.extend(is_one_bit(old, &new).then(|| ONE_BIT.to_string()));
        kinds.extend(is_last_byte(old, &new).then(|| LAST_BYTE.to_string()));
    }
    kinds
}

fn cause(first: &str, script: &Script) -> Vec<String> {
    let cause = match (&script.broken, first) {
        (Broken::ShortByOne, "script 20") => ONE_BYTE_SHORT,
        (Broken::LongByOne, "script 24") => ONE_BYTE_OVER,
        _ => return vec![],
    };
    vec![cause.to_string()]
}

/// What only an EV1's script can show: its lock, what is missing of it, and the values of NAKs.
fn ev1_kinds_of(script: &Script, first: &str, printout: &str) -> Vec<String> {
    let mut kinds: Vec<String> = match (first, &script.broken, script.lock) {
        ("script 20", Broken::ShortByOne, None) => vec![NO_COUNT.to_string()],
        ("script 20", Broken::ShortByOne, Some(_)) => vec![NO_TYPE.to_string()],
        ("script 21", Broken::Not, _) => vec!["script 21 for 1024".to_string()],
        ("card 4096", _, None) => vec!["open at the start".to_string()],
        ("card 4096", _, Some(usage)) => vec![format!("locked with {usage:02X}")],
        _ => vec![],
    };
    for ending in ["17 N0", "17 N4", "18 N0", "18 N4", "N0", "N4"] {
        if printout.lines().any(|line| line.ends_with(&format!(" {ending}"))) {
            kinds.push(ending.to_string());
        }
    }
    kinds
}

fn from_hex(digits: &str) -> BlockBytes {
    let mut bytes = [0; BLOCK_BYTES];
    for (at, byte) in bytes.iter_mut().enumerate() {
        *byte = u8::from_str_radix(&digits[2 * at..2 * at + 2], 16).unwrap();
    }
    bytes
}

fn print_side(name: &str, printout: &[u8]) {
    println!("--- {name}\n{}", String::from_utf8_lossy(printout));
}

fn printed_by(player: &str, script: &[u8]) -> Vec<u8> {
    let mut child = Command::new(player).stdin(Stdio::piped()).stdout(Stdio::piped()).spawn().expect("the player starts");
    // The player stops reading a script that is too long, so a write may fail; the printout is judged all the same.
    let _ = child.stdin.take().unwrap().write_all(script);
    child.wait_with_output().expect("the player ends").stdout
}

/// How a script was broken.
#[derive(PartialEq)]
enum Broken {
    Not,
    ShortByOne,
    LongByOne,
    Otherwise,
}

struct Script {
    bytes: Vec<u8>,
    /// The type in the third section of an EV1's, before it was broken.
    lock: Option<u8>,
    broken: Broken,
}

fn any(random: &mut Random, edition: Edition) -> Script {
    let event_count = random.pick(&[0, 1, 2, 7, 20, 60, 200, 1000]);
    let is_ev1 = edition == Edition::Ev1;
    let image = if is_ev1 && random.percent(92) { images::of_size(random, 4096) } else { images::right_size(random) };
    let mut reader = if is_ev1 { Reader::personalizing(random, &image) } else { Reader::new(random, &image) };
    let small_changes = random.below(1 + MOST_SMALL_CHANGES.min(event_count / 3));
    let mut events: Vec<Sent> = (3 * small_changes..event_count).map(|_| reader.send(random, &image)).collect();
    events.extend((0..small_changes).flat_map(|_| frames::small_change(random, &image)).map(Sent::Frame));
    if is_ev1 {
        let rounds = random.below(4).min((MOST_EVENTS - events.len()) / 4);
        events.extend((0..rounds).flat_map(|_| frames::personalize_with_a_value(random, &image)).map(Sent::Frame));
    }
    let mut bytes = written(&image, &events);
    let lock_at = bytes.len();
    let lock = if is_ev1 && random.percent(50) { Some(random.pick(&USAGES) as u8) } else { None };
    if is_ev1 {
        bytes.extend(section(lock));
    }
    let broken = match random.below(8) {
        0 if is_ev1 => break_the_lock(random, &mut bytes, lock_at),
        0..=3 => Broken::Not,
        _ => break_one_rule(random, &mut bytes),
    };
    Script { bytes, lock, broken }
}

/// The third section of an EV1's script, for a choice that is locked at the start.
pub fn section(lock: Option<u8>) -> Vec<u8> {
    match lock {
        None => vec![0],
        Some(usage) => vec![1, usage],
    }
}

/// Without its last byte, or with another count or another type; so the bytes behind may be too many as well, or missing.
fn break_the_lock(random: &mut Random, bytes: &mut Vec<u8>, at: usize) -> Broken {
    match random.below(5) {
        0 => {
            bytes.pop();
            return Broken::ShortByOne;
        }
        1 => bytes[at] = 2 + random.byte() % 254,
        2 => bytes[at] = random.byte() % 3,
        3 => {
            bytes.truncate(at);
            bytes.extend([1, random.byte()]);
            bytes.extend(random.percent(30).then(|| random.byte()));
        }
        _ => bytes.push(random.byte()),
    }
    Broken::Otherwise
}

/// The script of an image and events, a frame cut where it is longer than an event may be.
pub fn written<'a>(image: &[u8], events: impl IntoIterator<Item = &'a Sent, IntoIter: ExactSizeIterator>) -> Vec<u8> {
    let events = events.into_iter();
    let mut script = (image.len() as u16).to_le_bytes().to_vec();
    script.extend(image);
    script.extend((events.len() as u16).to_le_bytes());
    for event in events {
        let bytes = match event {
            Sent::Frame(frame) | Sent::Sealed(frame) => &frame[..frame.len().min(LONGEST_EVENT)],
            Sent::FieldReset => &[],
        };
        script.push(bytes.len() as u8);
        script.extend(bytes);
    }
    script
}

/// One cut, one change to a count, or bytes too many: most often a rule of the format is broken by it.
fn break_one_rule(random: &mut Random, script: &mut Vec<u8>) -> Broken {
    let image_bytes = usize::from(u16::from_le_bytes([script[0], script[1]]));
    let event_count_at = 2 + image_bytes;
    match random.below(8) {
        0 => {
            script.pop();
            return Broken::ShortByOne;
        }
        1 => {
            script.push(random.byte());
            return Broken::LongByOne;
        }
        2 => script.truncate(random.below(script.len())),
        3 => script.truncate(random.below(4)),
        4 => script[random.below(2)] = random.byte(),
        5 => script[event_count_at + 1] = random.byte(),
        6 => script.extend(vec![random.byte(); 1 + random.below(30000)]),
        _ => {
            if let Some(first_event_count) = script.get_mut(event_count_at + 2) {
                *first_event_count = 19 + random.byte() % 200;
            }
        }
    }
    Broken::Otherwise
}

//! Times and instructions of each case on both cards, in one run.

use crate::calls::{Card, Printout, LIBRARY, RUST};
use crate::card::SealedReply;
use crate::cases::{self, Case, Desk, Issue, Lookup, Mending, Opening, Played};
use crate::edition::CardBytes;
use crate::figures::FigureBytes;
use crate::instructions;
use crate::issuing::{GroupBits, Infos, Numbers, NUMBERS_BYTES};
use crate::layout::BlockBytes;
use crate::mending::{Report, REPORT_BYTES};
use crate::record::Record;
use crate::scripts;
use std::time::Instant;

/// All work is done once in each round, so that a busy second of the machine does not fall on one piece of work alone.
const ROUNDS: usize = 300;
const CALLS_PER_ROUND: u32 = 4000;
const PLAYS_PER_ROUND: u32 = 4;
const OPENINGS_PER_ROUND: u32 = 200;
/// Of five frames each, for a script of 1,000 events.
pub const RIDES: usize = 200;
/// Nanoseconds that a time may be off: a ratio of times this short says nothing.
const NOISE: f64 = 0.5;
const GOAL: f64 = 1.2;

/// A card that does nothing: what the loop and the call cost by themselves.
const NOTHING: Card = Card {
    frame_call: no_frame,
    sealed_frame_call: no_sealed_frame,
    field_reset_call: no_reset,
    card_frame_call: no_card_frame,
    card_sealed_frame_call: no_card_sealed_frame,
    card_reset_call: no_card_reset,
    open_call: no_open,
    kept_frame_call: no_kept_frame,
    kept_sealed_frame_call: no_kept_sealed_frame,
    kept_reset_call: no_kept_reset,
    play_call: no_play,
    play_ev1_call: no_play,
    lookup_call: no_lookup,
    mend_call: no_mend,
    write_directory_call: no_write_directory,
    read_directory_call: no_read_directory,
    write_access_call: no_write_access,
    read_access_call: no_read_access,
};

unsafe extern "C" fn no_frame(_: *mut u8, _: usize, _: *mut Record, _: *const u8, _: usize, _: *mut BlockBytes) -> u32 {
    0
}

unsafe extern "C" fn no_sealed_frame(_: *mut u8, _: usize, _: *mut Record, _: *const u8, _: usize, _: *mut SealedReply) -> u32 {
    0
}

unsafe extern "C" fn no_reset(_: *mut Record, _: *mut BlockBytes) -> u32 {
    0
}

unsafe extern "C" fn no_card_frame(_: *mut u8, _: usize, _: *mut CardBytes, _: *mut Record, _: *const u8, _: usize, _: *mut BlockBytes) -> u32 {
    0
}

unsafe extern "C" fn no_card_sealed_frame(
    _: *mut u8,
    _: usize,
    _: *mut CardBytes,
    _: *mut Record,
    _: *const u8,
    _: usize,
    _: *mut SealedReply,
) -> u32 {
    0
}

unsafe extern "C" fn no_card_reset(_: *mut CardBytes, _: *mut Record, _: *mut BlockBytes) -> u32 {
    0
}

unsafe extern "C" fn no_open(_: *const u8, _: usize, _: *const CardBytes, _: *mut FigureBytes) -> u32 {
    0
}

unsafe extern "C" fn no_kept_frame(
    _: *mut u8,
    _: usize,
    _: *mut CardBytes,
    _: *mut FigureBytes,
    _: *mut Record,
    _: *const u8,
    _: usize,
    _: *mut BlockBytes,
) -> u32 {
    0
}

unsafe extern "C" fn no_kept_sealed_frame(
    _: *mut u8,
    _: usize,
    _: *mut CardBytes,
    _: *mut FigureBytes,
    _: *mut Record,
    _: *const u8,
    _: usize,
    _: *mut SealedReply,
) -> u32 {
    0
}

unsafe extern "C" fn no_kept_reset(_: *const CardBytes, _: *const FigureBytes, _: *mut Record, _: *mut BlockBytes) -> u32 {
    0
}

unsafe extern "C" fn no_play(_: *const u8, _: usize, _: *mut Printout) -> usize {
    0
}

unsafe extern "C" fn no_lookup(_: *const u8, _: usize, _: u32) -> u32 {
    0
}

unsafe extern "C" fn no_mend(_: *mut u8, _: usize, _: *const u8, _: usize, _: *mut Report) -> u32 {
    0
}

unsafe extern "C" fn no_write_directory(_: *mut u8, _: usize, _: *const Infos, _: *const u8, _: usize) -> u32 {
    0
}

unsafe extern "C" fn no_read_directory(_: *const u8, _: usize, _: *mut Infos, _: *mut Numbers) -> u32 {
    0
}

unsafe extern "C" fn no_write_access(_: *mut u8, _: usize, _: u32, _: *const GroupBits) -> u32 {
    0
}

unsafe extern "C" fn no_read_access(_: *const u8, _: usize, _: u32, _: *mut GroupBits) -> u32 {
    0
}

/// Something that a card can be given again and again.
pub struct Work {
    pub name: String,
    pub times: u32,
    send: Box<dyn FnMut(&Card)>,
}

impl Work {
    fn of_case(case: Case) -> Work {
        let mut image = case.image.clone();
        Work { name: case.name.clone(), times: CALLS_PER_ROUND, send: Box::new(move |card| case.send(card, &mut image)) }
    }

    fn of_script(Played { name, edition, script }: Played) -> Work {
        let mut printout = scripts::blank_printout();
        let send = move |card: &Card| {
            std::hint::black_box(card.play(edition, &script, &mut printout));
        };
        Work { name, times: PLAYS_PER_ROUND, send: Box::new(send) }
    }

    fn of_lookup(lookup: Lookup) -> Work {
        let send = move |card: &Card| {
            std::hint::black_box(card.lookup(&lookup.image, lookup.application));
        };
        Work { name: lookup.name.to_string(), times: CALLS_PER_ROUND, send: Box::new(send) }
    }

    /// The image is torn anew before each call.
    fn of_mending(mending: Mending) -> Work {
        let (mut image, mut report) = (mending.image.clone(), [0; REPORT_BYTES]);
        let times = CALLS_PER_ROUND / mending.names.len() as u32;
        let name = mending.name.to_string();
        let send = move |card: &Card| {
            image.copy_from_slice(&mending.image);
            std::hint::black_box(card.mend(&mut image, &mending.names, &mut report));
        };
        Work { name, times, send: Box::new(send) }
    }

    fn of_issue(Issue { name, mut image, call }: Issue) -> Work {
        let (mut infos, mut numbers, mut read) = ([0; 2], [0; NUMBERS_BYTES], [0; 4]);
        let send = move |card: &Card| {
            std::hint::black_box(match &call {
                Desk::WriteDirectory(infos, numbers) => card.write_directory(&mut image, infos, numbers),
                Desk::ReadDirectory => card.read_directory(&image, &mut infos, &mut numbers),
                Desk::WriteAccess(sector, bits) => card.write_access(&mut image, *sector, bits),
                Desk::ReadAccess(sector) => card.read_access(&image, *sector, &mut read),
            });
        };
        Work { name: name.to_string(), times: CALLS_PER_ROUND, send: Box::new(send) }
    }

    fn of_opening(Opening { name, image, card }: Opening) -> Work {
        let mut figures = [0; 16];
        let send = move |side: &Card| {
            std::hint::black_box((side.open(&image, &card, &mut figures), &figures));
        };
        Work { name: name.to_string(), times: OPENINGS_PER_ROUND, send: Box::new(send) }
    }

    pub fn repeat(&mut self, card: &Card, times: u32) {
        for _ in 0..times {
            (self.send)(std::hint::black_box(card));
        }
    }

    fn nanoseconds(&mut self, card: &Card) -> f64 {
        let began = Instant::now();
        self.repeat(card, self.times);
        began.elapsed().as_nanos() as f64 / f64::from(self.times)
    }

    fn time_once(&mut self, least: &mut Times) {
        for (least, card) in least.iter_mut().zip([NOTHING, LIBRARY, RUST]) {
            *least = least.min(self.nanoseconds(&card));
        }
    }
}

pub fn works() -> Vec<Work> {
    let cases = cases::all().into_iter().map(Work::of_case);
    let scripts = cases::ride_scripts(RIDES).into_iter().map(Work::of_script);
    let lookups = cases::lookups().into_iter().map(Work::of_lookup);
    let mendings = cases::mendings().into_iter().map(Work::of_mending);
    let issues = cases::issues().into_iter().map(Work::of_issue);
    let openings = cases::openings().into_iter().map(Work::of_opening);
    cases.chain(scripts).chain(lookups).chain(mendings).chain(issues).chain(openings).collect()
}

/// The shortest nanoseconds of the empty card, the library and the Rust card.
type Times = [f64; 3];

/// A ratio, where the times are long enough to have one.
fn ratio(library: f64, rust: f64) -> String {
    if rust < NOISE {
        return "-".to_string();
    }
    format!("{:.2}", library / rust)
}

/// One line of the table, times less what the loop costs; gives whether the library takes too long, and too many instructions.
fn print_line(work: &Work, times: Times, (library_count, rust_count): (f64, f64)) -> (bool, bool) {
    let (library, rust) = (times[1] - times[0], times[2] - times[0]);
    let (by_time, by_count) = (ratio(library, rust), ratio(library_count, rust_count));
    println!("{:36} {library:8.1} {rust:8.1} {by_time:>6}   {library_count:8.0} {rust_count:8.0} {by_count:>6}", work.name);
    (library > GOAL * rust + NOISE, library_count > GOAL * rust_count)
}

pub fn print_table() {
    let counted = instructions::of_both();
    println!("{:36} {:>8} {:>8} {:>6}   {:>8} {:>8} {:>6}", "", "library", "Rust", "ratio", "library", "Rust", "ratio");
    println!("{:36} {:>8} {:>8} {:>6}   {:>8} {:>8} {:>6}", "", "ns", "ns", "", "instr.", "instr.", "");
    let mut works = works();
    let mut times = vec![[f64::MAX; 3]; works.len()];
    for _ in 0..ROUNDS {
        works.iter_mut().zip(&mut times).for_each(|(work, least)| work.time_once(least));
    }
    let mut dear = ENTRIES.map(|(_, entry)| Dear::new(entry));
    for ((work, times), counted) in works.iter().zip(times).zip(counted) {
        let entry = ENTRIES.iter().position(|(start, _)| work.name.starts_with(start)).unwrap();
        dear[entry].add(print_line(work, times, counted));
    }
    dear.iter().for_each(Dear::print);
}

/// How the names of lines begin, and of which entry they are; the last takes the rest.
const ENTRIES: [(&str, &str); 14] = [
    ("sealed", "frames with their checksum"),
    ("lookup", "lookups"),
    ("mend", "mendings"),
    ("issue", "calls of the issuing desk"),
    ("open", "openings"),
    ("kept EV1 sealed", "frames with their checksum and figures on an EV1"),
    ("kept EV1", "bare frames with figures on an EV1"),
    ("kept old sealed", "frames with their checksum and figures on an old card"),
    ("kept old", "bare frames with figures on an old card"),
    ("EV1 sealed", "frames with their checksum on an EV1"),
    ("EV1", "bare frames on an EV1"),
    ("old sealed", "frames with their checksum and an old card's record"),
    ("old", "bare frames with an old card's record"),
    ("", "bare frames"),
];

/// How many lines of an entry miss the goal.
struct Dear {
    entry: &'static str,
    lines: usize,
    by_time: usize,
    by_count: usize,
}

impl Dear {
    fn new(entry: &'static str) -> Dear {
        Dear { entry, lines: 0, by_time: 0, by_count: 0 }
    }

    fn add(&mut self, (by_time, by_count): (bool, bool)) {
        self.lines += 1;
        self.by_time += usize::from(by_time);
        self.by_count += usize::from(by_count);
    }

    fn print(&self) {
        let Dear { entry, lines, by_time, by_count } = self;
        println!("{entry}: of {lines} lines, {by_time} are dearer than {GOAL} times the Rust card by time, {by_count} by instructions");
    }
}

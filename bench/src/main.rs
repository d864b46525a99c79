//! The bench: an unverified Rust card, and what the proved library is compared with it for: answers, speed, stack.

mod calls;
mod card;
mod card_cover;
mod cards;
mod cases;
mod cover;
mod crc;
mod differ;
mod directory;
mod edition;
mod figures;
mod frames;
mod images;
mod instructions;
mod issues;
mod issuing;
mod layout;
mod lookups;
mod mending;
mod mendings;
mod player;
mod random;
mod reader;
mod record;
mod rights;
mod rust_calls;
mod scripts;
mod seals;
mod sessions;
mod side;
mod speed;
mod stack;
mod total_cover;
mod totals;
mod turns;
mod value;

use calls::{LIBRARY, RUST};
use edition::Edition;
use std::io::{Read, Write};
use std::process::ExitCode;

const USAGE: &str =
    "usage: bench differ SEED COUNT | totals SEED COUNT | scripts old|ev1 SEED COUNT PLAYER | print old|ev1 < SCRIPT | lookups SEED COUNT | mendings SEED COUNT | issues SEED COUNT | speed | stack";

fn main() -> ExitCode {
    let words: Vec<String> = std::env::args().skip(1).collect();
    let words: Vec<&str> = words.iter().map(String::as_str).collect();
    let good = match words[..] {
        ["differ", seed, count] => differ::run(number(seed), number(count)),
        ["totals", seed, count] => totals::run(number(seed), number(count)),
        ["scripts", edition, seed, count, player] => scripts::run(edition_of(edition), number(seed), number(count), player),
        ["print", edition] => print(edition_of(edition)),
        ["lookups", seed, count] => lookups::run(number(seed), number(count)),
        ["mendings", seed, count] => mendings::run(number(seed), number(count)),
        ["issues", seed, count] => issues::run(number(seed), number(count)),
        ["speed"] => {
            speed::print_table();
            true
        }
        ["stack"] => {
            stack::print_table();
            true
        }
        ["count", "library"] => {
            instructions::count(&LIBRARY);
            true
        }
        ["count", "rust"] => {
            instructions::count(&RUST);
            true
        }
        _ => {
            eprintln!("{USAGE}");
            return ExitCode::from(2);
        }
    };
    ExitCode::from(u8::from(!good))
}

fn number(word: &str) -> u64 {
    word.parse().unwrap_or_else(|_| panic!("{word} is not a number; {USAGE}"))
}

fn edition_of(word: &str) -> Edition {
    match word {
        "old" => Edition::Old,
        "ev1" => Edition::Ev1,
        _ => panic!("{word} is no edition; {USAGE}"),
    }
}

/// What the Rust player prints for the script on standard input.
fn print(edition: Edition) -> bool {
    let (mut script, mut printout) = (vec![], scripts::blank_printout());
    std::io::stdin().read_to_end(&mut script).expect("a script");
    let length = RUST.play(edition, &script, &mut printout);
    std::io::stdout().write_all(&printout[..length]).is_ok()
}

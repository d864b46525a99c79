//! What a differential run has met: each number, each command, each row of each table with each key and operation; and each turn of `turns`.

use crate::frames::MORE;
use crate::images::{RIGHT_SIZES, WRONG_SIZES};
use crate::layout::{bytes_of, group_of, has_block, is_image, is_trailer, sector_of, trailer_of, TRAILER_GROUP};
use crate::record::Record;
use crate::rights::AccessBits;
use crate::seals;
use crate::turns;
use std::collections::BTreeMap;

/// Each thing that a full run must have met this often.
pub const ENOUGH: u64 = 100;

/// The numbers of the old edition. Only a frame with a checksum gets the last.
pub const NUMBERS: [u8; 15] = [0, 1, 2, 3, 4, 5, 6, 7, 8, 9, 10, 11, 12, 13, UNSEALED];
pub const UNSEALED: u8 = 14;
const FIELD_RESET: &str = "field reset";
const HALT: &str = "Halt";
const AUTHENTICATE: &str = "Authenticate";
pub const READ: &str = "Read";
pub const WRITE_DATA: &str = "Write's data";
pub const INCREMENT_OPERAND: &str = "increment's operand";
pub const DECREMENT_OPERAND: &str = "decrement's operand";
const RESTORE_OPERAND: &str = "restore's operand";
const ON_DATA: [&str; 10] =
    [READ, "Write", WRITE_DATA, "increment", INCREMENT_OPERAND, "decrement", DECREMENT_OPERAND, "restore", RESTORE_OPERAND, "Transfer"];
const ON_TRAILER: [&str; 4] = [AUTHENTICATE, READ, "Write", WRITE_DATA];
/// How the names of things begin, one for each group of them.
const GROUPS: [&str; 10] = ["number", "command", "sealed", "data", "trailer", "memory", "turn", "end", "length", "size"];

pub struct Cover {
    met: BTreeMap<String, u64>,
    after_refused_authenticate: bool,
}

const CARELESS: &str = "memory command after a refused Authenticate";

impl Cover {
    /// Everything that is to be met, met zero times; among it these numbers.
    pub fn new(numbers: &[u8]) -> Cover {
        let things = answers(numbers).into_iter().chain(rows()).chain([CARELESS.to_string()]);
        Cover { met: things.map(|name| (name, 0)).collect(), after_refused_authenticate: false }
    }

    fn meet(&mut self, name: &str) {
        *self.met.get_mut(name).unwrap_or_else(|| panic!("{name} is not listed")) += 1;
    }

    /// What was sent before has nothing to do with what comes next.
    pub fn start_anew(&mut self) {
        self.after_refused_authenticate = false;
    }

    pub fn field_reset(&mut self) {
        self.start_anew();
        self.meet(&command_name(FIELD_RESET));
    }

    /// A frame that met `image` and `session` before it was answered with `number`.
    pub fn frame(&mut self, met: Option<Met>, number: u8) {
        self.meet(&number_name(number));
        let Some(met) = met else { return };
        self.meet(&command_name(met.command));
        if matches!(number, 0 | 10) {
            met.turns.iter().for_each(|turn| self.meet(turn));
        }
        let authenticate = met.command == AUTHENTICATE;
        if self.after_refused_authenticate && !authenticate && met.command != HALT {
            self.meet(CARELESS);
        }
        self.after_refused_authenticate = authenticate && number != 0;
        let rights_judged = if authenticate { number == 0 } else { matches!(number, 0 | 7..=10 | 13) };
        if let (Some(row), true) = (met.row, rights_judged) {
            self.meet(&row);
        }
    }

    /// The same for a frame with a checksum; `met` is then what its inner bytes are about.
    pub fn sealed(&mut self, frame: &[u8], met: Option<Met>, number: u8) {
        self.meet(&sealed_name(&number_name(number)));
        match (number, seals::wrong(frame), &met) {
            (UNSEALED, Some(way), met) => {
                self.meet(&wrong_name(way));
                if met.as_ref().is_some_and(|met| met.command == HALT) {
                    self.meet(&wrong_name(HALT));
                }
            }
            (0, None, Some(met)) => self.meet(&sealed_name(&format!("{} accepted", met.command))),
            _ => (),
        }
        if let (0 | 10, Some(met)) = (number, &met) {
            met.turns.iter().for_each(|turn| self.meet(&sealed_name(turn)));
        }
        self.frame(met.filter(|_| number != UNSEALED), number);
    }

    /// An image of so many bytes.
    pub fn size(&mut self, bytes: usize) {
        self.meet(&size_name(bytes));
    }

    /// A frame that met `session` and was refused for its length; counted where it would be a command without its last 256 or 65,536 bytes.
    pub fn length(&mut self, session: &Record, frame: &[u8]) {
        for more in MORE {
            let Some(end) = frame.len().checked_sub(more) else { return };
            if let Some((command, _)) = command_of(session, &frame[..end]).filter(|(command, _)| fits(command, end)) {
                self.meet(&length_name(command, more));
            }
        }
    }

    pub fn has_met(&self, name: &str) -> bool {
        self.met[name] > 0
    }

    /// The thing that was met least often, of those whose name starts so.
    fn least(&self, start: &str) -> String {
        let (name, count) = self.met.iter().filter(|(name, _)| name.starts_with(start)).min_by_key(|(_, count)| **count).unwrap();
        format!("{name} {count}")
    }

    pub fn line(&self) -> String {
        let least = GROUPS.map(|start| self.least(start));
        format!("least met: {}", least.join("; "))
    }

    pub fn thin(&self, enough: u64) -> Vec<String> {
        self.met.iter().filter(|(_, count)| **count < enough).map(|(name, count)| format!("{name} {count}")).collect()
    }

    /// Every group but the rows of the tables, which are many.
    pub fn print_counts(&self) {
        for start in GROUPS.into_iter().filter(|start| !["data", "trailer"].contains(start)) {
            for (name, count) in self.met.iter().filter(|(name, _)| name.starts_with(start)) {
                println!("  {name:52} {count:9}");
            }
        }
    }

    pub fn things(&self) -> usize {
        self.met.len()
    }
}

/// What there is to meet apart from the rows of the tables.
fn answers(numbers: &[u8]) -> Vec<String> {
    let mut names = vec![];
    for number in numbers {
        names.extend([number_name(*number), sealed_name(&number_name(*number))]);
    }
    for command in ON_DATA.into_iter().chain([AUTHENTICATE, HALT]) {
        names.extend([command_name(command), sealed_name(&format!("{command} accepted"))]);
        names.extend(MORE.map(|more| length_name(command, more)));
    }
    names.push(command_name(FIELD_RESET));
    names.extend(seals::WRONG.into_iter().chain([HALT]).map(wrong_name));
    for turn in turns::ALL {
        names.extend([turn.to_string(), sealed_name(turn)]);
    }
    names.extend(RIGHT_SIZES.into_iter().chain(WRONG_SIZES).map(size_name));
    names
}

fn rows() -> Vec<String> {
    let mut names = vec![];
    for row in 0..8 {
        for letter in ['A', 'B'] {
            names.extend(ON_DATA.map(|command| row_name("data", row, letter, command)));
            names.extend(ON_TRAILER.map(|command| row_name("trailer", row, letter, command)));
        }
    }
    names
}

fn number_name(number: u8) -> String {
    format!("number {number:2}")
}

fn command_name(command: &str) -> String {
    format!("command {command}")
}

fn length_name(command: &str, more: usize) -> String {
    format!("length of {command} and {more} more")
}

fn size_name(bytes: usize) -> String {
    format!("size {bytes}")
}

fn sealed_name(what: &str) -> String {
    format!("sealed {what}")
}

fn wrong_name(way: &str) -> String {
    format!("sealed {UNSEALED}: {way}")
}

fn row_name(table: &str, row: u8, letter: char, command: &str) -> String {
    format!("{table} row {row:03b} key {letter} {command}")
}

/// What a call is about, found before it is made.
pub struct Met {
    command: &'static str,
    row: Option<String>,
    turns: Vec<&'static str>,
}

/// What a frame is and for which block, or None where it is no command of the card. Second frames may have any length.
pub fn command_of(session: &Record, frame: &[u8]) -> Option<(&'static str, u8)> {
    Some(match (session[2], frame) {
        (1, _) => (WRITE_DATA, session[3]),
        (2, _) => (INCREMENT_OPERAND, session[3]),
        (3, _) => (DECREMENT_OPERAND, session[3]),
        (4, _) => (RESTORE_OPERAND, session[3]),
        (_, [0x60 | 0x61, block, _, _, _, _, _, _]) => (AUTHENTICATE, *block),
        (_, [0x30, block]) => (READ, *block),
        (_, [0xA0, block]) => ("Write", *block),
        (_, [0xC1, block]) => ("increment", *block),
        (_, [0xC0, block]) => ("decrement", *block),
        (_, [0xC2, block]) => ("restore", *block),
        (_, [0xB0, block]) => ("Transfer", *block),
        (_, [0x50, 0x00]) => (HALT, 0),
        _ => return None,
    })
}

/// Has this command's frame so many bytes?
fn fits(command: &str, length: usize) -> bool {
    match command {
        WRITE_DATA => length == 16,
        INCREMENT_OPERAND | DECREMENT_OPERAND | RESTORE_OPERAND => length == 4,
        _ => true,
    }
}

/// None where the frame is no command of the card.
pub fn met(image: &[u8], session: &Record, frame: &[u8]) -> Option<Met> {
    let (command, block) = command_of(session, frame)?;
    let letter = match (command, session[0]) {
        (AUTHENTICATE, _) => char::from(b'A' + frame[0] - 0x60),
        (_, 1) => 'A',
        _ => 'B',
    };
    let row = if command == HALT { None } else { row_met(image, block, letter, command) };
    let turns = if row.is_some() && fits(command, frame.len()) { turns::of(bytes_of(image, block), block, command, frame) } else { vec![] };
    Some(Met { command, row, turns })
}

fn row_met(image: &[u8], block: u8, letter: char, command: &str) -> Option<String> {
    if !is_image(image) || !has_block(image, block) {
        return None;
    }
    let access = AccessBits::of(bytes_of(image, trailer_of(sector_of(block))))?;
    Some(if command == AUTHENTICATE || is_trailer(block) {
        row_name("trailer", access.row(TRAILER_GROUP), letter, command)
    } else {
        row_name("data", access.row(group_of(block)), letter, command)
    })
}

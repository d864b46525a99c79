//! What the calls with figures have met: each number; 29 first and 29 last in every way; what comes before it; each kind of store, at the ends and
//! with a step between that is outside; resets and openings.

use crate::cards;
use crate::cover::{command_of, UNSEALED};
use crate::edition::CardBytes;
use crate::figures::{share, Figures, HIGHEST, LOWEST, MOST};
use crate::layout::{bytes_of, has_block, is_image, is_trailer, BLOCK_BYTES};
use crate::reader::Sent;
use crate::record::{to_session, Record};
use crate::seals;
use crate::value::Value;
use std::collections::BTreeMap;

/// Each thing that a full run must have met this often.
pub const ENOUGH: u64 = 20;

const OUTSIDE: u8 = 29;
const HALT: &[u8] = &[0x50, 0x00];
/// How figures are outside.
const WAYS: [&str; 4] = ["count below", "count above", "sum below", "sum above"];
/// Where they are inside still.
const ENDS: [&str; 4] = ["count 0", "count 255", "lowest sum", "highest sum"];
const CONTENTS: [&str; 4] = ["value over value", "value over none", "none over value", "none over none"];
const ENTRIES: [&str; 4] = ["old", "old sealed", "EV1", "EV1 sealed"];
const STORES: [&str; 2] = ["Write", "Transfer"];
const RECORDS: [&str; 3] = ["old", "EV1", "no record"];
const EVENTS: [&str; 5] = ["a store", "a trailer written", "accepted otherwise", "refused", "field reset"];

/// A block that a frame names and stores in, if nothing speaks against it: what it reads as before and after.
#[derive(Clone, Copy)]
pub struct Store {
    by_transfer: bool,
    block: u8,
    pub old: Option<Value>,
    pub new: Option<Value>,
}

impl Store {
    /// None where the frame is no Write's data and no Transfer from a full register.
    pub fn of(image: &[u8], session: &Record, frame: &[u8]) -> Option<Store> {
        let [_, _, stage, awaited, full, address, ..] = *session;
        let (by_transfer, block, new) = match (stage, full, frame) {
            (1, ..) => (false, awaited, Value::decode(frame.try_into().ok()?)),
            (0, 1, [0xB0, block]) => {
                let number = i32::from_le_bytes(session[8..].try_into().unwrap());
                (true, *block, Some(Value { number, address }))
            }
            _ => return None,
        };
        let is_there = is_image(image) && has_block(image, block);
        is_there.then(|| Store { by_transfer, block, old: Value::decode(bytes_of(image, block)), new })
    }

    /// The same when it was done: of a trailer some parts may have stayed.
    pub fn done(self, image: &[u8]) -> Store {
        let new = if is_trailer(self.block) { Value::decode(bytes_of(image, self.block)) } else { self.new };
        Store { new, ..self }
    }

    fn name(&self) -> &'static str {
        STORES[usize::from(self.by_transfer)]
    }

    fn contents(&self) -> &'static str {
        CONTENTS[usize::from(self.new.is_none()) * 2 + usize::from(self.old.is_none())]
    }
}

/// A call that was answered.
pub struct Call<'a> {
    /// The records and figures that it met.
    pub card: CardBytes,
    pub figures: Figures,
    pub session: Record,
    pub sent: &'a Sent,
    pub store: Option<Store>,
    pub result: u32,
    /// The figures came from an opening.
    pub is_opened: bool,
}

impl Call<'_> {
    fn entry(&self) -> &'static str {
        let (is_sealed, is_ev1) = (matches!(self.sent, Sent::Sealed(_)), self.card[0] == 1);
        ENTRIES[usize::from(is_ev1) * 2 + usize::from(is_sealed)]
    }

    fn number(&self) -> u8 {
        self.result as u8
    }

    fn frame(&self) -> &[u8] {
        seals::bare(self.sent).unwrap_or(&[])
    }

    fn is_seal_wrong(&self) -> bool {
        matches!(self.sent, Sent::Sealed(frame) if seals::wrong(frame).is_some())
    }

    fn event(&self) -> &'static str {
        match (self.number(), &self.store) {
            _ if matches!(self.sent, Sent::FieldReset) => EVENTS[4],
            (0, Some(store)) if is_trailer(store.block) => EVENTS[1],
            (0, Some(_)) => EVENTS[0],
            (0, None) => EVENTS[2],
            _ => EVENTS[3],
        }
    }
}

pub struct TotalCover {
    met: BTreeMap<String, u64>,
}

impl TotalCover {
    pub fn new() -> TotalCover {
        TotalCover { met: names().into_iter().map(|name| (name, 0)).collect() }
    }

    fn meet(&mut self, name: String) {
        *self.met.get_mut(&name).unwrap_or_else(|| panic!("{name} is not listed")) += 1;
    }

    pub fn opening(&mut self, image: &[u8], card: &CardBytes, number: u32, figures: &Figures) {
        if let Some(way) = cards::wrong(card) {
            return self.meet(format!("opening 11: no record, {way}"));
        }
        let edition = edition_of(card);
        if number != 0 {
            let what = if image.len() == 1024 { "EV1 of 1024 bytes".to_string() } else { format!("no card's size, {edition}") };
            return self.meet(format!("opening 11: {what}"));
        }
        self.meet(format!("opening: {edition} of {} bytes", image.len()));
        let mut blocks = image.chunks_exact(BLOCK_BYTES).enumerate();
        let is_value = |(_, bytes): (usize, &[u8])| Value::decode(bytes.try_into().unwrap()).is_some();
        if blocks.next().is_some_and(is_value) {
            self.meet("opening: block 0 reads as a value block".to_string());
        }
        if blocks.filter(|(block, _)| is_trailer(*block as u8)).any(is_value) {
            self.meet("opening: a trailer reads as a value block".to_string());
        }
        if figures.count == most(image.len()) {
            self.meet(format!("opening: {} value blocks", figures.count));
        }
        self.meet(format!("opening: sum {}", if figures.sum < 0 { "below 0" } else { "not below 0" }));
    }

    pub fn call(&mut self, call: &Call) {
        let ways = outside(&call.figures);
        if call.is_opened {
            self.meet(format!("from an opening: {}", call.event()));
        }
        let record = if cards::wrong(&call.card).is_some() { RECORDS[2] } else { edition_of(&call.card) };
        if matches!(call.sent, Sent::FieldReset) {
            let figures = if ways.is_empty() { "in range" } else { "outside" };
            return self.meet(format!("reset: figures {figures}, {record}"));
        }
        if record == RECORDS[2] {
            if !ways.is_empty() {
                self.meet(format!("11 before 29: no record, {}", if matches!(call.sent, Sent::Sealed(_)) { "sealed" } else { "bare" }));
            }
            return;
        }
        self.meet(number_name(call.entry(), call.number()));
        if ways.is_empty() {
            self.inside(call);
        } else {
            self.outside(call, &ways);
        }
    }

    /// A call with figures outside.
    fn outside(&mut self, call: &Call, ways: &[usize]) {
        let entry = call.entry();
        match call.number() {
            11 => self.meet(format!("11 before 29: no card's size, {entry}")),
            12 if to_session(&call.session).is_none() => self.meet(format!("12 before 29: no session's record, {entry}")),
            12 => self.meet(format!("12 before 29: incoherent, {entry}")),
            _ => {
                ways.iter().for_each(|way| self.meet(format!("29 first: {}, {entry}", WAYS[*way])));
                by_one(&call.figures, ways).for_each(|way| self.meet(format!("29 first by one: {way}, {entry}")));
                self.first(call, entry);
            }
        }
    }

    /// What a 29 was given before.
    fn first(&mut self, call: &Call, entry: &str) {
        let (is_awaited, is_halt) = (call.session[2] != 0, call.frame() == HALT);
        if call.is_seal_wrong() {
            self.meet(format!("29 before 14: {}, {entry}", if is_halt { "a Halt" } else { "any other" }));
        } else if is_awaited {
            self.meet(format!("29 first: a second frame, {entry}"));
        } else if is_halt {
            self.meet(format!("29 first: a Halt, {entry}"));
        } else if command_of(&call.session, call.frame()).is_none() {
            self.meet(format!("29 before 1 or a 40h, {entry}"));
        }
    }

    /// A call with figures in range.
    fn inside(&mut self, call: &Call) {
        let number = call.number();
        if number != OUTSIDE {
            let answer = if number == 0 { "accepted" } else { "refused" };
            at_ends(&call.figures).for_each(|end| self.meet(format!("{answer} with {end}")));
        }
        let Some(store) = &call.store else { return };
        match number {
            0 if is_trailer(store.block) => self.meet(format!("trailer written: {}", store.contents())),
            0 => self.stored(call, store),
            OUTSIDE => self.last(call, store),
            _ => (),
        }
    }

    fn stored(&mut self, call: &Call, store: &Store) {
        let name = store.name();
        self.meet(format!("{name}: {}, {}", store.contents(), call.entry()));
        let settled = settled(&call.figures, store);
        at_ends(&settled).for_each(|end| self.meet(format!("settled at {end}, {name}")));
        let old = share(store.old);
        let between = Figures { count: call.figures.count - old.count, sum: call.figures.sum - old.sum };
        outside(&between).iter().for_each(|way| self.meet(format!("step between outside: {}, {name}", WAYS[*way])));
    }

    fn last(&mut self, call: &Call, store: &Store) {
        let (settled, name, entry) = (settled(&call.figures, store), store.name(), call.entry());
        let ways = outside(&settled);
        ways.iter().for_each(|way| self.meet(format!("29 last: {}, {name}, {entry}", WAYS[*way])));
        by_one(&settled, &ways).for_each(|way| self.meet(format!("29 last by one: {way}, {name}")));
    }

    /// The thing that was met least often.
    pub fn least(&self) -> String {
        let (name, count) = self.met.iter().min_by_key(|(_, count)| **count).unwrap();
        format!("{name} {count}")
    }

    pub fn thin(&self) -> Vec<String> {
        self.met.iter().filter(|(_, count)| **count < ENOUGH).map(|(name, count)| format!("{name} {count}")).collect()
    }

    pub fn things(&self) -> usize {
        self.met.len()
    }

    pub fn print_counts(&self) {
        self.met.iter().for_each(|(name, count)| println!("  {name:52} {count:9}"));
    }
}

fn settled(given: &Figures, store: &Store) -> Figures {
    let (old, new) = (share(store.old), share(store.new));
    Figures { count: given.count - old.count + new.count, sum: given.sum - old.sum + new.sum }
}

/// The ways in which figures are outside, as places in WAYS.
fn outside(figures: &Figures) -> Vec<usize> {
    let ways = [figures.count < 0, figures.count > MOST, figures.sum < LOWEST, figures.sum > HIGHEST];
    (0..WAYS.len()).filter(|way| ways[*way]).collect()
}

/// Of these ways, those by one.
fn by_one<'a>(figures: &'a Figures, ways: &'a [usize]) -> impl Iterator<Item = &'static str> + 'a {
    let is_by_one = [figures.count == -1, figures.count == MOST + 1, figures.sum == LOWEST - 1, figures.sum == HIGHEST + 1];
    ways.iter().filter(move |way| is_by_one[**way]).map(|way| WAYS[*way])
}

fn at_ends(figures: &Figures) -> impl Iterator<Item = &'static str> {
    let is_at = [figures.count == 0, figures.count == MOST, figures.sum == LOWEST, figures.sum == HIGHEST];
    (0..ENDS.len()).filter(move |end| is_at[*end]).map(|end| ENDS[end])
}

/// Value blocks that a card of so many bytes can have.
fn most(bytes: usize) -> i64 {
    if bytes == 1024 {
        47
    } else {
        215
    }
}

fn edition_of(card: &CardBytes) -> &'static str {
    RECORDS[usize::from(card[0] == 1)]
}

fn number_name(entry: &str, number: u8) -> String {
    format!("{entry} number {number:2}")
}

/// Everything that has to be met.
fn names() -> Vec<String> {
    let mut names: Vec<String> = ["opening: block 0 reads as a value block", "opening: a trailer reads as a value block"].map(String::from).into();
    names.extend(cards::WRONG.map(|way| format!("opening 11: no record, {way}")));
    names.extend(["EV1 of 1024 bytes", "no card's size, old", "no card's size, EV1"].map(|what| format!("opening 11: {what}")));
    names.extend(["old of 1024 bytes", "old of 4096 bytes", "EV1 of 4096 bytes"].map(|what| format!("opening: {what}")));
    names.extend(["47 value blocks", "215 value blocks", "sum below 0", "sum not below 0"].map(|what| format!("opening: {what}")));
    names.extend(EVENTS.map(|event| format!("from an opening: {event}")));
    names.extend(["bare", "sealed"].map(|entry| format!("11 before 29: no record, {entry}")));
    for record in RECORDS {
        names.extend(["in range", "outside"].map(|figures| format!("reset: figures {figures}, {record}")));
    }
    names.extend(ENTRIES.into_iter().flat_map(names_of_entry));
    names.extend(CONTENTS.map(|contents| format!("trailer written: {contents}")));
    for end in ENDS {
        names.extend(["accepted", "refused"].map(|answer| format!("{answer} with {end}")));
        names.extend(STORES.map(|store| format!("settled at {end}, {store}")));
    }
    // Without its old content a block takes nothing above the most.
    for way in [WAYS[0], WAYS[2], WAYS[3]] {
        names.extend(STORES.map(|store| format!("step between outside: {way}, {store}")));
    }
    names.extend(WAYS.into_iter().flat_map(|way| STORES.map(|store| format!("29 last by one: {way}, {store}"))).filter(|name| !is_never(name)));
    names
}

fn names_of_entry(entry: &'static str) -> Vec<String> {
    let (is_sealed, is_ev1) = (entry.ends_with("sealed"), entry.starts_with("EV1"));
    // A large card has every block, so an EV1 knows no 2.
    let mut numbers: Vec<u8> = (0..=13).chain([OUTSIDE]).filter(|number| !(is_ev1 && *number == 2)).collect();
    numbers.extend(is_sealed.then_some(UNSEALED));
    numbers.extend([17, 18].into_iter().filter(|_| is_ev1));
    let mut names: Vec<String> = numbers.into_iter().map(|number| number_name(entry, number)).collect();
    for way in WAYS {
        names.extend(["29 first", "29 first by one"].map(|place| format!("{place}: {way}, {entry}")));
        names.extend(STORES.map(|store| format!("29 last: {way}, {store}, {entry}")).into_iter().filter(|name| !is_never(name)));
    }
    names.extend(
        ["11 before 29: no card's size", "12 before 29: no session's record", "12 before 29: incoherent"].map(|what| format!("{what}, {entry}")),
    );
    names.extend(["29 first: a Halt", "29 first: a second frame", "29 before 1 or a 40h"].map(|what| format!("{what}, {entry}")));
    if is_sealed {
        names.extend(["a Halt", "any other"].map(|what| format!("29 before 14: {what}, {entry}")));
    }
    names.extend(CONTENTS.map(|contents| format!("Write: {contents}, {entry}")));
    names.extend(CONTENTS[..2].iter().map(|contents| format!("Transfer: {contents}, {entry}")));
    names
}

/// A Transfer leaves a value, so it takes no count down.
fn is_never(name: &str) -> bool {
    name.contains("count below, Transfer")
}

//! The calls that are timed, counted and measured: a ride, each command alone, each refusal, some with their checksum; on a 1K and on a 4K card.
//! Then the same rides and what is new with a card's record, on an old card and on an EV1; and with figures.

use crate::calls::Card;
use crate::card::{Operation, Session, Stage, FRESH, SEALED_BYTES};
use crate::crc::seal_of;
use crate::directory::{checksum, place_of, ANNOUNCING, FIRST, SECOND};
use crate::edition::{of_card, CardBytes, CardRecord, Edition, Usage};
use crate::figures::{full_count, FigureBytes, Figures, MOST};
use crate::issuing::{GroupBits, Infos, FIRST_BYTES, NUMBERS_BYTES};
use crate::layout::{blocks_of, bytes_of_mut, is_trailer, trailer_of, BLOCK_BYTES};
use crate::reader::Sent;
use crate::record::{of_session, Record};
use crate::rights::Key;
use crate::scripts;
use crate::side::Held;
use crate::value::Value;

const TRANSPORT_TRAILER: [u8; 16] = [255, 255, 255, 255, 255, 255, 0xFF, 0x07, 0x80, 0x69, 255, 255, 255, 255, 255, 255];
const PURSE: Value = Value { number: 1_000_000_000, address: 4 };
const FULL_PURSE: Value = Value { number: i32::MAX, address: 4 };

/// Frames that start from one session and can be sent again and again.
pub struct Case {
    pub name: String,
    pub image: Vec<u8>,
    /// The card's record, for the calls that take one.
    card: Option<CardBytes>,
    /// The figures, for the calls that take both.
    figures: Option<FigureBytes>,
    session: Record,
    sent: Vec<Sent>,
}

impl Case {
    pub fn send(&self, card: &Card, image: &mut [u8]) {
        match (self.card, self.figures) {
            (None, _) => self.send_plain(card, image),
            (Some(record), None) => self.send_with(card, record, image),
            (Some(record), Some(figures)) => self.send_kept(card, record, figures, image),
        }
    }

    fn send_plain(&self, card: &Card, image: &mut [u8]) {
        let (mut session, mut reply) = (self.session, [0; SEALED_BYTES]);
        for sent in &self.sent {
            match sent {
                Sent::Frame(frame) => card.frame(image, &mut session, frame, reply.first_chunk_mut().unwrap()),
                Sent::Sealed(frame) => card.sealed_frame(image, &mut session, frame, &mut reply),
                Sent::FieldReset => card.field_reset(&mut session, reply.first_chunk_mut().unwrap()),
            };
        }
        std::hint::black_box((&session, &reply));
    }

    fn send_with(&self, card: &Card, mut record: CardBytes, image: &mut [u8]) {
        let (mut session, mut reply) = (self.session, [0; SEALED_BYTES]);
        for sent in &self.sent {
            match sent {
                Sent::Frame(frame) => card.card_frame(image, &mut record, &mut session, frame, reply.first_chunk_mut().unwrap()),
                Sent::Sealed(frame) => card.card_sealed_frame(image, &mut record, &mut session, frame, &mut reply),
                Sent::FieldReset => card.card_reset(&mut record, &mut session, reply.first_chunk_mut().unwrap()),
            };
        }
        std::hint::black_box((&record, &session, &reply));
    }

    fn send_kept(&self, card: &Card, mut record: CardBytes, mut figures: FigureBytes, image: &mut [u8]) {
        let (mut session, mut reply) = (self.session, [0; SEALED_BYTES]);
        for sent in &self.sent {
            match sent {
                Sent::Frame(frame) => card.kept_frame(image, &mut record, &mut figures, &mut session, frame, reply.first_chunk_mut().unwrap()),
                Sent::Sealed(frame) => card.kept_sealed_frame(image, &mut record, &mut figures, &mut session, frame, &mut reply),
                Sent::FieldReset => card.kept_reset(&mut record, &mut figures, &mut session, reply.first_chunk_mut().unwrap()),
            };
        }
        std::hint::black_box((&record, &figures, &session, &reply));
    }

    /// The only call of a case that has one, and what it starts from.
    pub fn only(&self) -> Option<(Held, &Sent)> {
        match &self.sent[..] {
            [sent] => Some((Held { card: self.card, figures: self.figures, session: self.session }, sent)),
            _ => None,
        }
    }

    /// The same with the figures of an opening.
    fn kept(self) -> Case {
        let figures = full_count(&self.image);
        self.kept_from(figures)
    }

    fn kept_from(mut self, figures: Figures) -> Case {
        self.name = format!("kept {}", self.name.replace("ride of five frames", "ride"));
        self.figures = Some(figures.bytes());
        self
    }

    /// The same with a card's record.
    fn on(mut self, edition: Edition, choice: Option<Usage>) -> Case {
        let word = if edition == Edition::Ev1 { "EV1" } else { "old" };
        self.name = format!("{word} {}", self.name);
        self.card = Some(of_card(&CardRecord { edition, choice }));
        self
    }
}

/// A card in transport state and the places of one of its sectors.
struct Place {
    image: Vec<u8>,
    sector: u8,
    purse: u8,
    full_purse: u8,
    plain: u8,
}

impl Place {
    fn new(bytes: usize, sector: u8) -> Place {
        let mut image = vec![0; bytes];
        for block in (0..bytes / BLOCK_BYTES).map(|block| block as u8).filter(|block| is_trailer(*block)) {
            *bytes_of_mut(&mut image, block) = TRANSPORT_TRAILER;
        }
        let (purse, _) = blocks_of(sector);
        *bytes_of_mut(&mut image, purse) = PURSE.encode();
        *bytes_of_mut(&mut image, purse + 1) = FULL_PURSE.encode();
        bytes_of_mut(&mut image, trailer_of(sector + 1))[6..9].fill(0);
        Place { image, sector, purse, full_purse: purse + 1, plain: purse + 2 }
    }

    fn name(&self, what: &str) -> String {
        let size = if self.image.len() == 1024 { "1K" } else { "4K" };
        format!("{what}, {size}")
    }

    fn case(&self, name: &str, session: Session, frames: &[&[u8]]) -> Case {
        let sent = frames.iter().map(|frame| Sent::Frame(frame.to_vec())).collect();
        Case { name: self.name(name), image: self.image.clone(), card: None, figures: None, session: of_session(&session), sent }
    }

    fn holder(&self) -> Session {
        Session { authenticated: Some((self.sector, Key::A)), stage: Stage::None, register: Some(PURSE) }
    }

    fn waiting(&self, operation: Operation) -> Session {
        Session { stage: Stage::Value { operation, block: self.purse }, ..self.holder() }
    }

    fn ride(&self) -> Case {
        let (authenticate, purse) = ([0x60, self.purse, 255, 255, 255, 255, 255, 255], self.purse);
        self.case("ride of five frames", FRESH, &[&authenticate, &[0xC0, purse], &[1, 0, 0, 0], &[0xB0, purse], &[0x30, purse]])
    }

    fn commands(&self) -> Vec<Case> {
        let (holder, purse, trailer) = (self.holder(), self.purse, trailer_of(self.sector));
        let write = |block| Session { stage: Stage::Write { block }, ..holder };
        let mut cases = vec![
            self.case("Authenticate A", FRESH, &[&[0x60, purse, 255, 255, 255, 255, 255, 255]]),
            self.case("Authenticate B", FRESH, &[&[0x61, purse, 255, 255, 255, 255, 255, 255]]),
            self.case("Read", holder, &[&[0x30, purse]]),
            self.case("Read of a trailer", holder, &[&[0x30, trailer]]),
            self.case("Write", holder, &[&[0xA0, purse]]),
            self.case("Write's data", write(purse), &[&PURSE.encode()]),
            self.case("Write's data for a trailer", write(trailer), &[&TRANSPORT_TRAILER]),
            self.case("increment", holder, &[&[0xC1, purse]]),
            self.case("increment's operand", self.waiting(Operation::Increment), &[&[1, 0, 0, 0]]),
            self.case("decrement", holder, &[&[0xC0, purse]]),
            self.case("decrement's operand", self.waiting(Operation::Decrement), &[&[1, 0, 0, 0]]),
            self.case("restore", holder, &[&[0xC2, purse]]),
            self.case("restore's operand", self.waiting(Operation::Restore), &[&[1, 0, 0, 0]]),
            self.case("Transfer", holder, &[&[0xB0, purse]]),
            self.case("Halt", holder, &[&[0x50, 0x00]]),
        ];
        let mut reset = self.case("field reset", holder, &[]);
        reset.sent.push(Sent::FieldReset);
        cases.push(reset);
        cases
    }

    fn refusals(&self) -> Vec<Case> {
        let (holder, purse) = (self.holder(), self.purse);
        let elsewhere = Session { authenticated: Some((0, Key::A)), ..holder };
        let in_blocked_sector = Session { authenticated: Some((self.sector + 1, Key::A)), ..holder };
        let with_readable_b = Session { authenticated: Some((self.sector, Key::B)), ..holder };
        let over = Session { stage: Stage::Value { operation: Operation::Increment, block: self.full_purse }, ..holder };
        let mut cases = vec![
            self.case("refused 12", Session { authenticated: None, ..holder }, &[&[0x30, purse]]),
            self.case("refused 1", holder, &[&[0x31, purse]]),
            self.case("refused 3", elsewhere, &[&[0x30, purse]]),
            self.case("refused 5", in_blocked_sector, &[&[0x30, blocks_of(self.sector + 1).0]]),
            self.case("refused 4", FRESH, &[&[0x60, purse, 255, 255, 255, 255, 255, 0]]),
            self.case("refused 6", elsewhere, &[&[0xA0, 0]]),
            self.case("refused 7", with_readable_b, &[&[0x30, purse]]),
            self.case("refused 8", holder, &[&[0xC0, self.plain]]),
            self.case("refused 9", Session { register: None, ..holder }, &[&[0xB0, purse]]),
            self.case("refused 13", over, &[&[255, 255, 255, 255]]),
            self.case("refused 10", over, &[&[1, 0, 0, 0]]),
        ];
        if self.image.len() == 1024 {
            cases.push(self.case("refused 2", holder, &[&[0x30, 64]]));
            let mut no_card = self.case("refused 11", holder, &[&[0x30, purse]]);
            no_card.image.pop();
            cases.push(no_card);
        }
        cases
    }

    fn sealed(&self) -> Vec<Case> {
        let (holder, purse) = (self.holder(), self.purse);
        let writing = Session { stage: Stage::Write { block: purse }, ..holder };
        let mut unsealed = self.case("sealed refused 14", holder, &[]);
        unsealed.sent.push(Sent::Sealed(vec![0x30, purse, 0, 0]));
        let read = self.case("Read", holder, &[&[0x30, purse]]);
        let data = self.case("Write's data", writing, &[&PURSE.encode()]);
        let sealed = [self.ride(), read, data].into_iter().map(with_seals);
        sealed.chain([unsealed]).collect()
    }
}

/// What an EV1 knows beyond the old card: 40h and its refusals.
fn personal(place: &Place) -> Vec<Case> {
    const ASKED: &[u8] = &[0x40, 0x40];
    let in_sector_0 = Session { authenticated: Some((0, Key::A)), ..place.holder() };
    let case = |name, session, frame: &[u8], choice| place.case(name, session, &[frame]).on(Edition::Ev1, choice);
    vec![
        case("40h", in_sector_0, ASKED, None),
        case("40h refused 3", place.holder(), ASKED, None),
        case("40h refused 7", Session { authenticated: Some((0, Key::B)), ..in_sector_0 }, ASKED, None),
        case("40h refused 17", in_sector_0, &[0x40, 0x41], None),
        case("40h refused 18", in_sector_0, ASKED, Some(Usage::Uidf1)),
    ]
}

/// The calls with a card's record: a ride on either edition; on an EV1 each command, each refusal and 40h.
fn with_record() -> Vec<Case> {
    let [small, large] = places();
    let ev1 = |case: Case| case.on(Edition::Ev1, None);
    let mut cases: Vec<Case> = [&small, &large].map(|place| place.ride().on(Edition::Old, None)).into();
    cases.push(ev1(large.ride()));
    cases.extend(large.commands().into_iter().chain(large.refusals()).map(ev1));
    cases.push(ev1(small.case("refused 11", small.holder(), &[&[0x30, small.purse]])));
    cases.extend(personal(&large));
    cases.extend([&small, &large].map(|place| with_seals(place.ride()).on(Edition::Old, None)));
    cases.extend(large.sealed().into_iter().map(ev1));
    cases.extend(personal(&large).into_iter().map(with_seals));
    cases
}

/// The calls with figures: rides on either edition; on a small old card and on an EV1 what stores, a Read, a Halt, and refusals, by both 29 among them.
fn with_figures() -> Vec<Case> {
    let [small, large] = places();
    let (old, ev1) = (|case: Case| case.on(Edition::Old, None), |case: Case| case.on(Edition::Ev1, None));
    let too_many = |image: &[u8]| Figures { count: MOST + 1, ..full_count(image) };
    let most = |image: &[u8]| Figures { count: MOST, ..full_count(image) };
    let mut cases: Vec<Case> = [&small, &large].map(|place| old(place.ride()).kept()).into();
    for (place, on) in [(&small, old as fn(Case) -> Case), (&large, ev1 as fn(Case) -> Case)] {
        let (holder, purse, image) = (place.holder(), place.purse, &place.image);
        let writing = |block| Session { stage: Stage::Write { block }, ..holder };
        let case = |name: &str, session, frame: &[u8]| on(place.case(name, session, &[frame]));
        cases.extend([
            case("Read", holder, &[0x30, purse]).kept(),
            case("Write's data", writing(purse), &PURSE.encode()).kept(),
            case("Write's data, trailer", writing(trailer_of(place.sector)), &TRANSPORT_TRAILER).kept(),
            case("Transfer", holder, &[0xB0, purse]).kept(),
            case("Halt", holder, &[0x50, 0x00]).kept(),
            case("refused 12", Session { authenticated: None, ..holder }, &[0x30, purse]).kept(),
            case("refused 29 first", holder, &[0x30, purse]).kept_from(too_many(image)),
            case("refused 29 last", writing(place.plain), &PURSE.encode()).kept_from(most(image)),
            case("refused 3", Session { authenticated: Some((0, Key::A)), ..holder }, &[0x30, purse]).kept(),
        ]);
        let mut reset = on(place.case("field reset", holder, &[])).kept();
        reset.sent.push(Sent::FieldReset);
        cases.push(reset);
    }
    cases.push(ev1(large.ride()).kept());
    cases.extend([&small, &large].map(|place| old(with_seals(place.ride())).kept()));
    cases.extend(large.sealed().into_iter().map(ev1).map(Case::kept));
    cases
}

/// A card to open.
pub struct Opening {
    pub name: &'static str,
    pub image: Vec<u8>,
    pub card: CardBytes,
}

/// Cards as they are delivered but for a purse, and with a value in every block; and one that is none.
pub fn openings() -> Vec<Opening> {
    let [small, large] = places().map(|place| place.image);
    let full = |image: &[u8]| {
        let mut image = image.to_vec();
        for block in (0..image.len() / BLOCK_BYTES).map(|block| block as u8).filter(|block| !is_trailer(*block)) {
            *bytes_of_mut(&mut image, block) = PURSE.encode();
        }
        image
    };
    [
        ("open, 1K", small.clone()),
        ("open, 4K", large.clone()),
        ("open, 1K, all value blocks", full(&small)),
        ("open, 4K, all value blocks", full(&large)),
        ("open, refused 11", small[1..].to_vec()),
    ]
    .map(|(name, image)| Opening { name, image, card: of_card(&CardRecord { edition: Edition::Old, choice: None }) })
    .into()
}

/// The same bytes, each frame with its checksum.
fn with_seals(mut case: Case) -> Case {
    case.name = match case.name.strip_prefix("EV1 ") {
        Some(name) => format!("EV1 sealed {name}"),
        None => format!("sealed {}", case.name),
    };
    for sent in &mut case.sent {
        if let Sent::Frame(frame) = sent {
            *sent = Sent::Sealed([&frame[..], &seal_of(frame)].concat());
        }
    }
    case
}

fn places() -> [Place; 2] {
    [Place::new(1024, 1), Place::new(4096, 33)]
}

/// A script for an edition's player.
pub struct Played {
    pub name: String,
    pub edition: Edition,
    pub script: Vec<u8>,
}

/// Scripts of so many rides.
pub fn ride_scripts(rides: usize) -> Vec<Played> {
    let script_of = |place: &Place| {
        let ride = place.ride();
        let events: Vec<&Sent> = (0..rides).flat_map(|_| &ride.sent).collect();
        Played { name: place.name("printout of 1,000 events"), edition: Edition::Old, script: scripts::written(&ride.image, events) }
    };
    let mut all: Vec<Played> = places().iter().map(script_of).collect();
    let large = all.last().unwrap();
    let script = [&large.script[..], &scripts::section(None)].concat();
    all.push(Played { name: format!("EV1 {}", large.name), edition: Edition::Ev1, script });
    all
}

pub fn all() -> Vec<Case> {
    let places = places();
    let rides = places.iter().map(Place::ride);
    let commands = places.iter().flat_map(Place::commands);
    let refusals = places.iter().flat_map(Place::refusals);
    let sealed = places.iter().flat_map(Place::sealed);
    rides.chain(commands).chain(refusals).chain(sealed).chain(with_record()).chain(with_figures()).collect()
}

/// A number to look up in an image.
pub struct Lookup {
    pub name: &'static str,
    pub image: Vec<u8>,
    pub application: u32,
}

/// An image whose sectors s hold the numbers 4800h + s, with right checksums.
fn announced(bytes: usize, announcing: u8) -> Vec<u8> {
    let mut image = vec![0; bytes];
    image[ANNOUNCING] = announcing;
    for sector in (1..if bytes == 1024 { 16 } else { 40 }).filter(|sector| *sector != 16) {
        image[place_of(sector)..place_of(sector) + 2].copy_from_slice(&[sector, 0x48]);
    }
    for part in [FIRST, SECOND].into_iter().filter(|part| part.end <= bytes) {
        image[part.start] = checksum(&image[part.start + 1..part.end]);
    }
    image
}

/// First, last and none in both versions; and lookups that end with the checksum, over 31 bytes or over 31 and 47, and are refused by 16.
pub fn lookups() -> Vec<Lookup> {
    let (one, two) = (announced(1024, 0xC1), announced(4096, 0xC2));
    let (mut wrong_one, mut wrong_two) = (one.clone(), two.clone());
    wrong_one[FIRST.start] ^= 1;
    wrong_two[SECOND.start] ^= 1;
    [
        ("lookup, version 1, first", &one, 0x4801),
        ("lookup, version 1, last", &one, 0x480F),
        ("lookup, version 1, none", &one, 0x9999),
        ("lookup, version 2, first", &two, 0x4801),
        ("lookup, version 2, last", &two, 0x4827),
        ("lookup, version 2, none", &two, 0x9999),
        ("lookup, 16 after 31 bytes", &wrong_one, 0x4801),
        ("lookup, 16 after 31 and 47 bytes", &wrong_two, 0x4801),
    ]
    .map(|(name, image, application)| Lookup { name, image: image.clone(), application })
    .into()
}

/// Blocks of an image to mend.
pub struct Mending {
    pub name: &'static str,
    pub image: Vec<u8>,
    pub names: Vec<u8>,
}

/// One block that is sound, torn in its value, torn in its address, and without a majority; and every data block of a large card torn.
pub fn mendings() -> Vec<Mending> {
    let sound = Value { number: 1000, address: 4 }.encode();
    let torn = |at: usize| {
        let mut image = vec![0; 4096];
        image.chunks_mut(BLOCK_BYTES).for_each(|block| block.copy_from_slice(&sound));
        image.iter_mut().skip(at).step_by(BLOCK_BYTES).for_each(|byte| *byte ^= 0x10);
        image
    };
    let whole = sound.repeat(4096 / BLOCK_BYTES);
    let data: Vec<u8> = (1..=254).filter(|block| !is_trailer(*block)).collect();
    [
        ("mend, a sound block", whole, vec![4]),
        ("mend, a torn value", torn(2), vec![4]),
        ("mend, a torn address", torn(13), vec![4]),
        ("mend, no majority", vec![0; 4096], vec![4]),
        ("mend, all data blocks, 4K", torn(6), data),
    ]
    .map(|(name, image, names)| Mending { name, image, names })
    .into()
}

/// A call of the issuing desk.
pub enum Desk {
    WriteDirectory(Infos, Vec<u8>),
    ReadDirectory,
    WriteAccess(u32, GroupBits),
    ReadAccess(u32),
}

pub struct Issue {
    pub name: &'static str,
    pub image: Vec<u8>,
    pub call: Desk,
}

/// Both versions written and read, a directory that is refused; a sector's access bytes written and read.
pub fn issues() -> Vec<Issue> {
    let (one, two) = (announced(1024, 0xC1), announced(4096, 0xC2));
    let numbers: Vec<u8> = (1..=38).flat_map(|sector| [sector, 0x48]).collect();
    let list = |bytes: usize| Desk::WriteDirectory([1, 0x11], numbers[..bytes].to_vec());
    let (mut wrong, mut open) = (two.clone(), one.clone());
    wrong[SECOND.start] ^= 1;
    bytes_of_mut(&mut open, trailer_of(5)).copy_from_slice(&TRANSPORT_TRAILER);
    [
        ("issue, write version 1", one.clone(), list(FIRST_BYTES)),
        ("issue, write version 2", two.clone(), list(NUMBERS_BYTES)),
        ("issue, write, 27", two.clone(), list(NUMBERS_BYTES - 1)),
        ("issue, read version 1", one.clone(), Desk::ReadDirectory),
        ("issue, read version 2", two, Desk::ReadDirectory),
        ("issue, read, 16", wrong, Desk::ReadDirectory),
        ("issue, write access bytes", one.clone(), Desk::WriteAccess(5, [4, 4, 6, 3])),
        ("issue, read access bytes", open, Desk::ReadAccess(5)),
        ("issue, read access bytes, 5", one, Desk::ReadAccess(5)),
    ]
    .map(|(name, image, call)| Issue { name, image, call })
    .into()
}

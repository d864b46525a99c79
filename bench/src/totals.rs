//! The differential test of the calls with figures: openings, random calls with forged sessions and figures, and runs of a careless reader.
//! In a run from an opening the figures have to be a full count of the image after every event.

use crate::calls::{LIBRARY, RUST};
use crate::cards;
use crate::edition::CardBytes;
use crate::figures::{full_count, share, FigureBytes, Figures, HIGHEST, LOWEST, MOST};
use crate::frames;
use crate::images::{self, RIGHT_SIZES};
use crate::layout::{bytes_of_mut, is_image, is_trailer, BLOCK_BYTES};
use crate::random::Random;
use crate::reader::{Reader, Sent};
use crate::record::Record;
use crate::seals::{bare, on_the_air};
use crate::sessions;
use crate::side::{self, Held, Side};
use crate::total_cover::{Call, Store, TotalCover, ENOUGH};
use crate::value::Value;

const CALLS_PER_LINE: u64 = 100_000;
const CALLS_PER_IMAGE: usize = 24;
/// One call in so many is made again without figures.
const CALLS_PER_PLAIN_FORM: u64 = 8;
/// From this many calls on, everything must have been met often enough.
const FULL_RUN: u64 = 1_000_000;
/// What a figure may be off by to be far outside, and inside still where only its low bytes are looked at.
const FAR: [i64; 9] = [i64::MIN, 1 << 8, 1 << 16, 1 << 32, 1 << 48, 1 << 56, -(1 << 8), -(1 << 32), -(1 << 48)];

/// The values of a card that has one in every block.
const RICHES: [&[i32]; 3] = [&[i32::MIN], &[i32::MAX], &[i32::MIN, i32::MAX, 0, -1]];

struct Totals {
    random: Random,
    cover: TotalCover,
    library: Side,
    rust: Side,
    calls: u64,
    /// How many of a hundred frames have a checksum.
    sealed_share: usize,
    /// How many calls were made again without figures.
    plain_forms: u64,
    /// The figures came from an opening, and only these calls have changed the image since.
    is_opened: bool,
}

/// Gives whether no difference was met (and, in a full run, whether enough was covered).
pub fn run(seed: u64, count: u64) -> bool {
    let mut totals = Totals::new(seed);
    while totals.calls < count {
        let same = totals.open_another() && totals.use_it();
        if !same {
            println!("difference at call {} of seed {seed}", totals.calls);
            return false;
        }
    }
    totals.report(seed, count)
}

impl Totals {
    fn new(seed: u64) -> Totals {
        let (library, rust) = (Side::new(&[]), Side::new(&[]));
        Totals { random: Random::new(seed), cover: TotalCover::new(), library, rust, calls: 0, sealed_share: 0, plain_forms: 0, is_opened: false }
    }

    /// Another card for both, opened. Gives whether both openings were the same.
    fn open_another(&mut self) -> bool {
        let image = any_image(&mut self.random);
        let (card, lent) = (cards::any(&mut self.random, &image), self.random.bytes());
        let [library, rust] = [LIBRARY, RUST].map(|side| {
            let (copy, mut figures) = (image.clone(), lent);
            (side.open(&copy, &card, &mut figures), Figures::of(&figures), copy == image)
        });
        self.calls += 1;
        if library != rust {
            println!("  image of {} bytes, card {card:02X?}, opened", image.len());
            println!("  number, figures, image kept: library {library:?}, Rust {rust:?}");
            return false;
        }
        let (number, figures, _) = rust;
        self.cover.opening(&image, &card, number, &figures);
        (self.library, self.rust) = (Side::new(&image), Side::new(&image));
        self.hold(card, figures.bytes());
        self.is_opened = number == 0;
        self.sealed_share = self.random.pick(&[0, 50, 100]);
        true
    }

    fn hold(&mut self, card: CardBytes, figures: FigureBytes) {
        for side in [&mut self.library, &mut self.rust] {
            (side.card, side.figures) = (Some(card), Some(figures));
        }
    }

    /// Calls that have nothing to do with each other; a run from the opening; or one from any figures.
    fn use_it(&mut self) -> bool {
        match self.random.below(4) {
            0 | 1 => self.forged_calls(),
            2 => self.careless_run(),
            _ => {
                let (card, figures) = (self.rust.card.unwrap(), any_figures(&mut self.random, self.rust.image(), None));
                self.hold(card, figures.bytes());
                self.is_opened = false;
                self.careless_run()
            }
        }
    }

    fn forged_calls(&mut self) -> bool {
        self.is_opened = false;
        (0..CALLS_PER_IMAGE).all(|_| {
            let frame = self.forged();
            let store = Store::of(self.rust.image(), &self.rust.session, &frame);
            let figures = any_figures(&mut self.random, self.rust.image(), store.as_ref());
            let card = cards::any(&mut self.random, self.rust.image());
            self.hold(card, figures.bytes());
            let sent = if self.random.percent(1) { Sent::FieldReset } else { Sent::Frame(frame) };
            self.call(sent)
        })
    }

    /// A session that no card need have left, and a frame for it; in half of them the frame stores something if nothing speaks against it.
    fn forged(&mut self) -> Vec<u8> {
        let (random, image) = (&mut self.random, self.rust.image());
        let (session, frame) = match random.below(20) {
            0..=4 => {
                let session = sessions::for_write(random, image);
                (session, any_data(random, image, session[3]))
            }
            5..=8 => {
                let (session, block) = sessions::for_transfer(random, image);
                (session, vec![0xB0, block])
            }
            9 => {
                let data = if random.percent(60) { images::value_trailer(random) } else { images::trailer(random) };
                (sessions::for_trailer(random, image), data.to_vec())
            }
            10 | 11 => (sessions::at_sector_0(random, image), frames::personalize(random)),
            12 => (sessions::forged(random, image), vec![0x50, 0x00]),
            _ => {
                let session = sessions::forged(random, image);
                (session, frames::any(random, image, session[1], sessions::awaited(&session)))
            }
        };
        (self.library.session, self.rust.session) = (session, session);
        frame
    }

    /// Frames of a careless reader, with some Transfers and Writes among them by one who knows the keys.
    fn careless_run(&mut self) -> bool {
        let mut reader = Reader::personalizing(&mut self.random, self.rust.image());
        let mut next = vec![];
        (0..CALLS_PER_IMAGE).all(|_| {
            let image = self.rust.image();
            if next.is_empty() && self.random.percent(25) {
                next = any_store(&mut self.random, image);
                next.reverse();
            }
            let sent = next.pop().map_or_else(|| reader.send(&mut self.random, image), Sent::Frame);
            self.call(sent)
        })
    }

    /// Gives whether both cards did the same, and what is promised for the figures was so.
    fn call(&mut self, sent: Sent) -> bool {
        let sent = &on_the_air(&mut self.random, self.sealed_share, sent);
        let before = self.rust.held();
        let store = bare(sent).and_then(|frame| Store::of(self.rust.image(), &before.session, frame));
        let plain_form = self.calls.is_multiple_of(CALLS_PER_PLAIN_FORM).then(|| self.library.without_figures());
        self.library.send(&LIBRARY, sent);
        self.rust.send(&RUST, sent);
        self.calls += 1;
        let same = self.library == self.rust && plain_form.is_none_or(|side| self.is_plain_form(side, &before, sent)) && self.is_full_count();
        if !same {
            side::print_difference(sent, &before, &self.library, &self.rust);
            return false;
        }
        self.count(&before, sent, store);
        if self.calls.is_multiple_of(CALLS_PER_LINE) {
            println!("{:8} calls, no difference; least met: {}", self.calls, self.cover.least());
        }
        true
    }

    /// Whether the library answers without figures as it did with them; with a 29 at the end, whether it would have stored. `side` is what it had
    /// before.
    fn is_plain_form(&mut self, mut side: Side, before: &Held, sent: &Sent) -> bool {
        side.send(&LIBRARY, sent);
        self.plain_forms += 1;
        let is_same = match self.library.result as u8 {
            29 => !Figures::of(&before.figures.unwrap()).is_in_range() || side.result == 0,
            _ => side == self.library.without_figures(),
        };
        if !is_same {
            side.describe("without");
        }
        is_same
    }

    /// For figures from an opening: they are those of a full count, and no 29 came.
    fn is_full_count(&self) -> bool {
        if !self.is_opened {
            return true;
        }
        let full = full_count(self.rust.image());
        let is_full = self.rust.figures == Some(full.bytes()) && self.rust.result as u8 != 29;
        if !is_full {
            println!("  a full count gives {full:?}");
        }
        is_full
    }

    fn count(&mut self, before: &Held, sent: &Sent, store: Option<Store>) {
        let image = self.rust.image();
        let call = Call {
            card: before.card.unwrap(),
            figures: Figures::of(&before.figures.unwrap()),
            session: before.session,
            sent,
            store: store.map(|store| store.done(image)),
            result: self.rust.result,
            is_opened: self.is_opened,
        };
        self.cover.call(&call);
    }

    fn report(&self, seed: u64, count: u64) -> bool {
        println!("seed {seed}: {} calls with figures, no difference", self.calls);
        println!("{} of them were made again without figures, and gave the same", self.plain_forms);
        self.cover.print_counts();
        let (thin, things) = (self.cover.thin(), self.cover.things());
        println!("{} of {things} things met with figures at least {ENOUGH} times", things - thin.len());
        thin.iter().for_each(|thing| println!("  too seldom: {thing}"));
        thin.is_empty() || count < FULL_RUN
    }
}

/// A card of most kinds, some with a value in every block; of some, many trailers read as value blocks or have transport bits.
fn any_image(random: &mut Random) -> Vec<u8> {
    let mut image = if random.percent(6) {
        let (bytes, numbers) = (random.pick(&RIGHT_SIZES), random.pick(&RICHES));
        images::rich(random, bytes, numbers)
    } else {
        images::mostly_large(random)
    };
    if !is_image(&image) {
        return image;
    }
    let (values_share, open_share) = (random.pick(&[0, 0, 25]), random.pick(&[0, 0, 70]));
    for block in (0..image.len() / BLOCK_BYTES).map(|block| block as u8).filter(|block| is_trailer(*block)) {
        let trailer = bytes_of_mut(&mut image, block);
        if random.percent(values_share) {
            *trailer = images::value_trailer(random);
        } else if random.percent(open_share) {
            trailer[6..9].copy_from_slice(&images::TRANSPORT_BITS);
        }
    }
    image
}

/// A Transfer or a Write from an Authenticate on, by a reader who knows the key and, in most, has the right.
fn any_store(random: &mut Random, image: &[u8]) -> Vec<Vec<u8>> {
    let code_of = |session: &Record| 0x5F + session[0];
    match random.below(10) {
        0..=4 => {
            let (session, target) = sessions::for_transfer(random, image);
            let source = sessions::source_for(random, image, &session);
            let operand = frames::operand(random, frames::stored(image, source)).to_le_bytes().to_vec();
            vec![frames::opener(image, source, code_of(&session)), vec![random.pick(&[0xC0, 0xC2]), source], operand, vec![0xB0, target]]
        }
        5..=8 => {
            let session = sessions::for_write(random, image);
            let block = session[3];
            vec![frames::opener(image, block, code_of(&session)), vec![0xA0, block], any_data(random, image, block)]
        }
        _ => frames::small_change(random, image).to_vec(),
    }
}

/// A Write's data for a data block: the same again, another value, or any.
fn any_data(random: &mut Random, image: &[u8], block: u8) -> Vec<u8> {
    match frames::stored(image, block) {
        Some(bytes) if random.percent(10) => bytes.to_vec(),
        Some(bytes) if random.percent(10) => match Value::decode(bytes) {
            Some(value) => Value { number: value.number.wrapping_add(1), ..value }.encode().to_vec(),
            None => images::data(random).to_vec(),
        },
        _ => images::data(random).to_vec(),
    }
}

/// Right ones, any in range, ends of the ranges, one or more outside of them, any sixteen bytes; or what a store takes to an end or one further.
fn any_figures(random: &mut Random, image: &[u8], store: Option<&Store>) -> Figures {
    let inside = any_inside(random);
    match (random.below(20), store) {
        (0..=3, _) if is_image(image) => full_count(image),
        (0..=5, _) => inside,
        (6, _) => one_outside(random, inside),
        (7, _) => far_outside(random, inside),
        (8, _) => Figures::of(&random.bytes()),
        (9..=11, _) | (_, None) => at_an_end(random, inside),
        (_, Some(store)) => near_an_end(random, inside, store),
    }
}

fn any_inside(random: &mut Random) -> Figures {
    let sum = LOWEST + (random.word() % (HIGHEST - LOWEST + 1) as u64) as i64;
    Figures { count: random.below(MOST as usize + 1) as i64, sum: if random.percent(30) { sum / 1000 } else { sum } }
}

fn at_an_end(random: &mut Random, inside: Figures) -> Figures {
    match random.below(3) {
        0 => Figures { count: random.pick(&[0, 1, MOST - 1, MOST]), ..inside },
        1 => Figures { sum: random.pick(&[LOWEST, LOWEST + 1, HIGHEST - 1, HIGHEST]), ..inside },
        _ => Figures { count: random.pick(&[0, MOST]), sum: random.pick(&[LOWEST, HIGHEST]) },
    }
}

fn one_outside(random: &mut Random, inside: Figures) -> Figures {
    match random.below(5) {
        0 => Figures { count: -1, ..inside },
        1 => Figures { count: MOST + 1, ..inside },
        2 => Figures { sum: LOWEST - 1, ..inside },
        3 => Figures { sum: HIGHEST + 1, ..inside },
        _ => Figures { count: random.pick(&[-1, MOST + 1]), sum: random.pick(&[LOWEST - 1, HIGHEST + 1]) },
    }
}

fn far_outside(random: &mut Random, inside: Figures) -> Figures {
    let far = random.pick(&FAR);
    if random.percent(50) {
        Figures { count: inside.count.wrapping_add(far), ..inside }
    } else {
        Figures { sum: inside.sum.wrapping_add(far), ..inside }
    }
}

/// Figures that the store takes to the end on its side, or one further; where it changes none, the end itself.
fn near_an_end(random: &mut Random, inside: Figures, store: &Store) -> Figures {
    let (old, new) = (share(store.old), share(store.new));
    let further = i64::from(random.percent(50));
    let before = |change: i64, [low, high]: [i64; 2], either: i64| match change {
        0 => either,
        1.. => high - change + further,
        _ => low - change - further,
    };
    if random.percent(50) {
        let end = random.pick(&[0, MOST]);
        Figures { count: before(new.count - old.count, [0, MOST], end), ..inside }
    } else {
        let end = random.pick(&[LOWEST, HIGHEST]);
        Figures { sum: before(new.sum - old.sum, [LOWEST, HIGHEST], end), ..inside }
    }
}

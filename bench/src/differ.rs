//! The differential test: the same random calls to the library and to the Rust card, everything that comes back compared.

use crate::calls::{LIBRARY, RUST};
use crate::card_cover::{self, CardCover};
use crate::cards;
use crate::cover::{self, Cover, ENOUGH, NUMBERS};
use crate::edition::CardBytes;
use crate::frames;
use crate::images;
use crate::random::Random;
use crate::reader::{Reader, Sent};
use crate::record::Record;
use crate::seals::{bare, on_the_air};
use crate::sessions;
use crate::side::{self, Side};
use crate::turns;

const CALLS_PER_LINE: u64 = 100_000;
const CALLS_PER_IMAGE: usize = 24;
/// How many of a hundred images go to the calls with a card's record.
const RECORD_SHARE: usize = 35;
/// How many of a hundred forged calls with a record are about Personalize UID Usage.
const PERSONAL_SHARE: usize = 20;
/// One call without a record in so many is made again with four zeros for it.
const CALLS_PER_SHORT_FORM: u64 = 8;
/// From this many calls on, everything must have been met often enough.
const FULL_RUN: u64 = 1_000_000;
/// The ends of the range must have been met in the first calls already.
const FIRST_CALLS: u64 = 1_000;
const OLD_CARD: CardBytes = [0; 4];

struct Differ {
    random: Random,
    /// Of the calls without a record, and of those with one.
    cover: Cover,
    card_cover: CardCover,
    library: Side,
    rust: Side,
    calls: u64,
    /// How many of a hundred frames have a checksum.
    sealed_share: usize,
    /// How many calls were made again with an old card's record.
    short_forms: u64,
    ends_met_at_first: bool,
}

/// Gives whether no difference was met (and, in a full run, whether enough was covered).
pub fn run(seed: u64, count: u64) -> bool {
    let mut differ = Differ::new(seed);
    while differ.calls < count {
        differ.take_image();
        let same = if differ.random.percent(50) { differ.forged_calls() } else { differ.careless_run() };
        if !same {
            println!("difference at call {} of seed {seed}", differ.calls);
            return false;
        }
    }
    differ.report(seed, count)
}

impl Differ {
    fn new(seed: u64) -> Differ {
        let (library, rust) = (Side::new(&[]), Side::new(&[]));
        let (cover, card_cover) = (Cover::new(&NUMBERS), CardCover::new());
        Differ { random: Random::new(seed), cover, card_cover, library, rust, calls: 0, sealed_share: 0, short_forms: 0, ends_met_at_first: false }
    }

    /// Another image for both cards, with a record or without.
    fn take_image(&mut self) {
        let has_record = self.random.percent(RECORD_SHARE);
        let image = if has_record { images::mostly_large(&mut self.random) } else { images::any_size(&mut self.random) };
        (self.library, self.rust) = (Side::new(&image), Side::new(&image));
        if has_record {
            let card = cards::any(&mut self.random, &image);
            self.hold(card);
        }
        self.sealed_share = self.random.pick(&[0, 50, 100]);
    }

    fn hold(&mut self, card: CardBytes) {
        (self.library.card, self.rust.card) = (Some(card), Some(card));
    }

    fn has_record(&self) -> bool {
        self.rust.card.is_some()
    }

    fn forged_calls(&mut self) -> bool {
        (0..CALLS_PER_IMAGE).all(|_| {
            self.start_anew();
            let is_personal = self.has_record() && self.random.percent(PERSONAL_SHARE);
            if self.has_record() {
                let card = cards::any(&mut self.random, self.rust.image());
                self.hold(card);
            }
            let frame = if is_personal { self.personalize() } else { self.forged() };
            let sent = if self.random.percent(1) { Sent::FieldReset } else { Sent::Frame(frame) };
            self.call(sent)
        })
    }

    /// A forged session, and a frame for it.
    fn forged(&mut self) -> Vec<u8> {
        let session = sessions::forged(&mut self.random, self.rust.image());
        (self.library.session, self.rust.session) = (session, session);
        frames::any(&mut self.random, self.rust.image(), session[1], sessions::awaited(&session))
    }

    fn personalize(&mut self) -> Vec<u8> {
        let session = sessions::at_sector_0(&mut self.random, self.rust.image());
        (self.library.session, self.rust.session) = (session, session);
        frames::personalize(&mut self.random)
    }

    fn start_anew(&mut self) {
        self.cover.start_anew();
        self.card_cover.commands.start_anew();
    }

    fn careless_run(&mut self) -> bool {
        self.start_anew();
        let (has_record, image) = (self.has_record(), self.rust.image());
        let mut reader = if has_record { Reader::personalizing(&mut self.random, image) } else { Reader::new(&mut self.random, image) };
        (0..CALLS_PER_IMAGE).all(|_| {
            let sent = reader.send(&mut self.random, self.rust.image());
            self.call(sent)
        })
    }

    /// Gives whether both cards did the same.
    fn call(&mut self, sent: Sent) -> bool {
        let sent = &on_the_air(&mut self.random, self.sealed_share, sent);
        let (before, met) = (self.rust.held(), self.met(sent));
        let short_form = (before.card.is_none() && self.calls.is_multiple_of(CALLS_PER_SHORT_FORM)).then(|| self.library.with(Some(OLD_CARD)));
        self.library.send(&LIBRARY, sent);
        self.rust.send(&RUST, sent);
        self.calls += 1;
        let same = self.library == self.rust && short_form.is_none_or(|side| self.is_short_form(side, sent));
        if !same {
            side::print_difference(sent, &before, &self.library, &self.rust);
            return false;
        }
        self.count(before.card, &before.session, sent, met);
        if self.calls.is_multiple_of(CALLS_PER_LINE) {
            println!("{:8} calls, no difference; {}", self.calls, self.cover.line());
        }
        true
    }

    /// Whether the library answers with an old card's record as it did without: `side` is what it had before.
    fn is_short_form(&mut self, mut side: Side, sent: &Sent) -> bool {
        side.send(&LIBRARY, sent);
        self.short_forms += 1;
        let is_same = side == self.library.with(Some(OLD_CARD));
        if !is_same {
            side.describe("with 0000");
        }
        is_same
    }

    /// Counts what a call was about, which met these records and was answered.
    fn count(&mut self, card: Option<CardBytes>, session: &Record, sent: &Sent, met: Option<cover::Met>) {
        let (number, image_bytes) = (self.rust.result as u8, self.rust.image().len());
        let cover = if card.is_some() { &mut self.card_cover.commands } else { &mut self.cover };
        cover.size(image_bytes);
        if let (Some(frame), 1) = (bare(sent), number) {
            cover.length(session, frame);
        }
        match sent {
            Sent::Frame(_) => cover.frame(met, number),
            Sent::Sealed(frame) => cover.sealed(frame, met, number),
            Sent::FieldReset => cover.field_reset(),
        }
        if let Some(card) = card {
            let (is_sealed, result) = (matches!(sent, Sent::Sealed(_)), self.rust.result);
            self.card_cover.call(&card_cover::Call { image_bytes, card, session: *session, frame: bare(sent), is_sealed, result });
        }
        if self.calls == FIRST_CALLS {
            let covers = [&self.cover, &self.card_cover.commands];
            self.ends_met_at_first = turns::ENDS.iter().all(|end| covers.iter().any(|cover| cover.has_met(end)));
        }
    }

    fn met(&self, sent: &Sent) -> Option<cover::Met> {
        cover::met(self.rust.image(), &self.rust.session, bare(sent)?)
    }

    fn report(&self, seed: u64, count: u64) -> bool {
        println!("seed {seed}: {} calls, no difference", self.calls);
        println!("{} calls without a record were made again with an old card's, and gave the same", self.short_forms);
        self.cover.print_counts();
        println!("with a card's record:");
        self.card_cover.print_counts();
        let (thin, with_record) = (self.cover.thin(ENOUGH), self.card_cover.thin());
        println!("{} of {} things met at least {ENOUGH} times", self.cover.things() - thin.len(), self.cover.things());
        let (things, enough) = (self.card_cover.things(), card_cover::ENOUGH);
        println!("{} of {things} things met with a record at least {enough} times", things - with_record.len());
        thin.iter().chain(&with_record).for_each(|thing| println!("  too seldom: {thing}"));
        println!("both ends of the range met in the first {FIRST_CALLS} calls: {}", if self.ends_met_at_first { "yes" } else { "no" });
        thin.is_empty() && with_record.is_empty() && self.ends_met_at_first || count < FULL_RUN
    }
}

//! One of the two cards that a differential test compares: what it holds, and what it has answered.

use crate::calls::Card;
use crate::card::SealedReply;
use crate::edition::CardBytes;
use crate::figures::{FigureBytes, Figures};
use crate::reader::Sent;
use crate::record::Record;

/// Bytes on either side of a lent image, which no card may touch.
const MARGIN: usize = 16;
/// How much of a frame is printed.
const SHOWN: usize = 40;

/// What is held beside an image.
#[derive(Clone, Copy)]
pub struct Held {
    pub card: Option<CardBytes>,
    pub figures: Option<FigureBytes>,
    pub session: Record,
}

impl Held {
    fn describe(&self, name: &str) {
        println!("  {name:8} card {:02X?} session {:02X?}", self.card, self.session);
        if let Some(figures) = &self.figures {
            println!("  {:8} {:?}", "", Figures::of(figures));
        }
    }
}

/// An image between two margins, a record where the calls take one, figures where they take both, a session, the last reply and result.
#[derive(Clone, PartialEq)]
pub struct Side {
    image: Vec<u8>,
    pub card: Option<CardBytes>,
    pub figures: Option<FigureBytes>,
    pub session: Record,
    pub reply: SealedReply,
    pub result: u32,
}

impl Side {
    pub fn new(image: &[u8]) -> Side {
        let margin = [0xA5; MARGIN];
        Side { image: [&margin, image, &margin].concat(), card: None, figures: None, session: [0; 12], reply: [0; 18], result: 0 }
    }

    pub fn image(&self) -> &[u8] {
        &self.image[MARGIN..self.image.len() - MARGIN]
    }

    pub fn send(&mut self, card: &Card, sent: &Sent) {
        // What is lent to a call without checksum leaves the last two alone.
        self.reply = [0xEE; 18];
        let end = self.image.len() - MARGIN;
        let (image, session, reply) = (&mut self.image[MARGIN..end], &mut self.session, &mut self.reply);
        self.result = match (sent, &mut self.card, &mut self.figures) {
            (Sent::Frame(frame), None, _) => card.frame(image, session, frame, reply.first_chunk_mut().unwrap()),
            (Sent::Sealed(frame), None, _) => card.sealed_frame(image, session, frame, reply),
            (Sent::FieldReset, None, _) => card.field_reset(session, reply.first_chunk_mut().unwrap()),
            (Sent::Frame(frame), Some(record), None) => card.card_frame(image, record, session, frame, reply.first_chunk_mut().unwrap()),
            (Sent::Sealed(frame), Some(record), None) => card.card_sealed_frame(image, record, session, frame, reply),
            (Sent::FieldReset, Some(record), None) => card.card_reset(record, session, reply.first_chunk_mut().unwrap()),
            (Sent::Frame(frame), Some(record), Some(figures)) => {
                card.kept_frame(image, record, figures, session, frame, reply.first_chunk_mut().unwrap())
            }
            (Sent::Sealed(frame), Some(record), Some(figures)) => card.kept_sealed_frame(image, record, figures, session, frame, reply),
            (Sent::FieldReset, Some(record), Some(figures)) => card.kept_reset(record, figures, session, reply.first_chunk_mut().unwrap()),
        };
    }

    /// The same side with another record.
    pub fn with(&self, card: Option<CardBytes>) -> Side {
        Side { card, ..self.clone() }
    }

    /// The same side for the calls without figures.
    pub fn without_figures(&self) -> Side {
        Side { figures: None, ..self.clone() }
    }

    pub fn held(&self) -> Held {
        Held { card: self.card, figures: self.figures, session: self.session }
    }

    pub fn describe(&self, name: &str) {
        let [number, sign, value, rest] = self.result.to_le_bytes();
        self.held().describe(name);
        println!("  {:8} number {number} sign {sign} value {value} rest {rest} reply {:02X?}", "", self.reply);
    }
}

/// What was sent, what it met, and what both cards made of it.
pub fn print_difference(sent: &Sent, before: &Held, library: &Side, rust: &Side) {
    match sent {
        Sent::Frame(frame) => println!("  frame of {} bytes {:02X?}", frame.len(), &frame[..frame.len().min(SHOWN)]),
        Sent::Sealed(frame) => println!("  sealed frame of {} bytes {:02X?}", frame.len(), &frame[..frame.len().min(SHOWN)]),
        Sent::FieldReset => println!("  field reset"),
    }
    println!("  image of {} bytes", rust.image().len());
    before.describe("before");
    library.describe("library");
    rust.describe("Rust");
    for (at, (library, rust)) in library.image().iter().zip(rust.image()).enumerate() {
        if library != rust {
            println!("  image byte {at} (block {}): library {library:02X}, Rust {rust:02X}", at / 16);
        }
    }
}

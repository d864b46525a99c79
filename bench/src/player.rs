//! The script players on the Rust card, the old edition's and EV1's: a script in, its printout out.

use crate::card::{self, Session, Sign, FRESH, PLAYED_RECORD};
use crate::edition::{self, CardRecord, Edition, Usage, Valued};
use crate::layout::{BlockBytes, BLOCK_BYTES};

/// The players. The compiler builds each, as there is one in each of the libraries.
const OLD: bool = false;
const EV1: bool = true;

pub const MOST_EVENTS: usize = 1000;
pub const LONGEST_EVENT: usize = 18;
const DIGITS: &[u8; 16] = b"0123456789ABCDEF";

/// What is left to read of a script.
struct Reader<'a>(&'a [u8]);

impl<'a> Reader<'a> {
    fn take(&mut self, count: usize) -> Result<&'a [u8], u8> {
        let (taken, rest) = self.0.split_at_checked(count).ok_or(20)?;
        self.0 = rest;
        Ok(taken)
    }

    fn two_byte_count(&mut self) -> Result<usize, u8> {
        let bytes = self.take(2)?;
        Ok(usize::from(u16::from_le_bytes([bytes[0], bytes[1]])))
    }

    fn event(&mut self) -> Result<&'a [u8], u8> {
        let count = usize::from(self.take(1)?[0]);
        if count > LONGEST_EVENT {
            return Err(23);
        }
        self.take(count)
    }

    /// The third section of an EV1's script: the choice that is locked at the start.
    fn choice(&mut self) -> Result<Option<Usage>, u8> {
        match self.take(1)?[0] {
            0 => Ok(None),
            1 => Ok(Some(Usage::of(self.take(1)?[0]).ok_or(26)?)),
            _ => Err(25),
        }
    }
}

struct Script<'a> {
    image: &'a [u8],
    event_count: usize,
    /// The events with their counts, judged.
    events: Reader<'a>,
    card: CardRecord,
}

fn read<const PLAYER: bool>(script: &[u8]) -> Result<Script<'_>, u8> {
    let mut reader = Reader(script);
    let size = reader.two_byte_count()?;
    if size != 4096 && (PLAYER == EV1 || size != 1024) {
        return Err(21);
    }
    let image = reader.take(size)?;
    let event_count = reader.two_byte_count()?;
    if event_count > MOST_EVENTS {
        return Err(22);
    }
    let events = Reader(reader.0);
    for _ in 0..event_count {
        reader.event()?;
    }
    let card = match PLAYER {
        OLD => CardRecord { edition: Edition::Old, choice: None },
        EV1 => CardRecord { edition: Edition::Ev1, choice: reader.choice()? },
    };
    if !reader.0.is_empty() {
        return Err(24);
    }
    Ok(Script { image, event_count, events, card })
}

/// Writes the printout and gives its length.
pub fn play(script: &[u8], printout: &mut [u8]) -> usize {
    played::<OLD>(script, printout)
}

pub fn play_ev1(script: &[u8], printout: &mut [u8]) -> usize {
    played::<EV1>(script, printout)
}

fn played<const PLAYER: bool>(script: &[u8], printout: &mut [u8]) -> usize {
    let mut writer = Writer { printout, length: 0 };
    match read::<PLAYER>(script) {
        Ok(script) => writer.run::<PLAYER>(script),
        Err(number) => {
            writer.text(b"script ");
            writer.number(usize::from(number));
            writer.text(b"\n");
        }
    }
    writer.length
}

/// One event on the card of a player.
fn answer<const PLAYER: bool>(image: &mut [u8], card: &mut CardRecord, session: &mut Session, frame: &[u8], reply: &mut BlockBytes) -> Valued {
    if frame.is_empty() {
        return Valued { answer: card::field_reset(session, reply), value: 0 };
    }
    match PLAYER {
        OLD => Valued { answer: card::frame(image, session, frame, reply), value: 0 },
        EV1 => edition::frame::<PLAYED_RECORD>(image, card, session, frame, reply),
    }
}

struct Writer<'a> {
    printout: &'a mut [u8],
    length: usize,
}

impl Writer<'_> {
    fn run<const PLAYER: bool>(&mut self, mut script: Script) {
        self.text(b"card ");
        self.number(script.image.len());
        self.text(b" events ");
        self.number(script.event_count);
        self.text(b"\n");
        let (mut copy, mut session, mut reply) = ([0; 4096], FRESH, [0; BLOCK_BYTES]);
        let image = &mut copy[..script.image.len()];
        image.copy_from_slice(script.image);
        for event in 1..=script.event_count {
            let frame = script.events.event().expect("judged when read");
            let answer = answer::<PLAYER>(image, &mut script.card, &mut session, frame, &mut reply);
            self.event_line::<PLAYER>(event, answer, &reply);
        }
        self.changes(script.image, image);
    }

    fn event_line<const PLAYER: bool>(&mut self, event: usize, Valued { answer, value }: Valued, reply: &BlockBytes) {
        self.number(event);
        self.text(b" ");
        self.number(usize::from(answer.number));
        self.text(b" ");
        match answer.sign {
            Sign::Ack => self.text(b"A"),
            Sign::Nak if PLAYER == EV1 => self.text(&[b'N', DIGITS[usize::from(value)]]),
            Sign::Nak => self.text(b"N"),
            Sign::Nothing => self.text(b"-"),
            Sign::Data => self.hex(reply),
        }
        self.text(b"\n");
    }

    fn changes(&mut self, before: &[u8], after: &[u8]) {
        for (block, (old, new)) in before.chunks_exact(BLOCK_BYTES).zip(after.chunks_exact(BLOCK_BYTES)).enumerate() {
            if old != new {
                self.text(b"block ");
                self.number(block);
                self.text(b" ");
                self.hex(new.try_into().unwrap());
                self.text(b"\n");
            }
        }
    }

    fn text(&mut self, text: &[u8]) {
        self.printout[self.length..self.length + text.len()].copy_from_slice(text);
        self.length += text.len();
    }

    fn number(&mut self, number: usize) {
        if number >= 10 {
            self.number(number / 10);
        }
        self.text(&[b'0' + (number % 10) as u8]);
    }

    fn hex(&mut self, bytes: &BlockBytes) {
        for byte in bytes {
            self.text(&[DIGITS[usize::from(byte >> 4)], DIGITS[usize::from(byte & 15)]]);
        }
    }
}

//! A careless reader, which sends frames one after the other.

use crate::frames::{self, Awaited};
use crate::layout::sectors;
use crate::random::Random;

/// It takes each of its frames to have been accepted, and goes on after a failed authentication as if it had not failed.
pub struct Reader {
    sector: u8,
    awaited: Awaited,
    /// It sends Personalize UID Usage now and then.
    personalizes: bool,
}

pub enum Sent {
    Frame(Vec<u8>),
    /// With two bytes behind it for its checksum.
    Sealed(Vec<u8>),
    FieldReset,
}

impl Reader {
    pub fn new(random: &mut Random, image: &[u8]) -> Reader {
        Reader { sector: random.below(usize::from(sectors(image))) as u8, awaited: Awaited::Nothing, personalizes: false }
    }

    /// A reader of cards with a record, who is often about sector 0.
    pub fn personalizing(random: &mut Random, image: &[u8]) -> Reader {
        let mut reader = Reader { personalizes: true, ..Reader::new(random, image) };
        if random.percent(40) {
            reader.sector = 0;
        }
        reader
    }

    fn another(&self, random: &mut Random, image: &[u8]) -> Reader {
        if self.personalizes {
            Reader::personalizing(random, image)
        } else {
            Reader::new(random, image)
        }
    }

    pub fn send(&mut self, random: &mut Random, image: &[u8]) -> Sent {
        if random.percent(2) {
            self.awaited = Awaited::Nothing;
            return Sent::FieldReset;
        }
        if random.percent(3) {
            *self = self.another(random, image);
        }
        let frame = self.frame(random, image);
        self.awaited = match (self.awaited, &frame[..]) {
            (Awaited::Nothing, [0xA0, block]) => Awaited::Data(*block),
            (Awaited::Nothing, [0xC0..=0xC2, block]) => Awaited::Operand(*block),
            _ => Awaited::Nothing,
        };
        Sent::Frame(frame)
    }

    fn frame(&self, random: &mut Random, image: &[u8]) -> Vec<u8> {
        if self.awaited == Awaited::Nothing && random.percent(25) {
            let block = frames::block(random, self.sector);
            return frames::authenticate(random, image, block);
        }
        if self.personalizes && random.percent(if self.sector == 0 { 15 } else { 2 }) {
            return frames::personalize(random);
        }
        frames::any(random, image, self.sector, self.awaited)
    }
}

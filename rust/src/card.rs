//! The record of a card, there and back, and the value of an EV1's NAK.

/// Which card it is.
#[derive(Clone, Copy, Debug, Default, PartialEq, Eq)]
pub enum Edition {
    #[default]
    Old,
    Ev1,
}

/// How a card shows its UID: the four types of Personalize UID Usage, by their type bytes.
#[derive(Clone, Copy, Debug, PartialEq, Eq)]
pub enum Usage {
    Uidf0 = 0x00,
    Uidf1 = 0x40,
    Uidf2 = 0x20,
    Uidf3 = 0x60,
}

impl Usage {
    /// The type that a byte names, if it names one.
    pub fn of(code: u8) -> Option<Usage> {
        [Usage::Uidf0, Usage::Uidf1, Usage::Uidf2, Usage::Uidf3]
            .into_iter()
            .find(|usage| *usage as u8 == code)
    }
}

/// Open to a Personalize UID Usage, or locked for good.
#[derive(Clone, Copy, Debug, Default, PartialEq, Eq)]
pub enum Choice {
    #[default]
    Open,
    Locked(Usage),
}

/// What is kept beside an image. An old card may have a choice; it changes nothing there.
#[derive(Clone, Copy, Debug, Default, PartialEq, Eq)]
pub struct Card {
    pub edition: Edition,
    pub choice: Choice,
}

impl Card {
    /// A card of the old edition.
    pub const OLD: Card = Card {
        edition: Edition::Old,
        choice: Choice::Open,
    };

    /// An EV1 as it is delivered.
    pub const EV1: Card = Card {
        edition: Edition::Ev1,
        choice: Choice::Open,
    };

    /// The four bytes of the record.
    pub fn bytes(self) -> [u8; 4] {
        let edition = match self.edition {
            Edition::Old => 0,
            Edition::Ev1 => 1,
        };
        match self.choice {
            Choice::Open => [edition, 0, 0, 0],
            Choice::Locked(usage) => [edition, 1, usage as u8, 0],
        }
    }

    /// The card whose record these bytes are, if they are one.
    pub fn of_bytes(bytes: [u8; 4]) -> Option<Card> {
        let edition = match bytes[0] {
            0 => Edition::Old,
            1 => Edition::Ev1,
            _ => return None,
        };
        let choice = match bytes[1..] {
            [0, 0, 0] => Choice::Open,
            [1, code, 0] => Choice::Locked(Usage::of(code)?),
            _ => return None,
        };
        Some(Card { edition, choice })
    }

    /// Takes over the record that a call gave back; it is one wherever it was one before.
    pub(crate) fn take(&mut self, bytes: [u8; 4]) {
        if let Some(card) = Card::of_bytes(bytes) {
            *self = card;
        }
    }
}

/// The value of an EV1's NAK, by the register that the frame met and what was wrong.
#[derive(Clone, Copy, Debug, PartialEq, Eq)]
pub enum Nak {
    FullInvalidOperation = 0x0,
    FullChecksumError = 0x1,
    EmptyInvalidOperation = 0x4,
    EmptyChecksumError = 0x5,
}

impl Nak {
    /// An old card's NAK has no value, and no other sign has one.
    pub(crate) fn of(card: Card, result: u32) -> Option<Nak> {
        if card.edition == Edition::Old || result >> 8 & 0xFF != 1 {
            return None;
        }
        match result >> 16 & 0xFF {
            0x0 => Some(Nak::FullInvalidOperation),
            0x1 => Some(Nak::FullChecksumError),
            0x4 => Some(Nak::EmptyInvalidOperation),
            0x5 => Some(Nak::EmptyChecksumError),
            _ => None,
        }
    }
}

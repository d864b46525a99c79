//! The number and the sum of a card's value blocks, kept beside its image. `include/tirlwheel.h` says what they are.

use crate::{answer, ffi, sign, Answer, Card, CardAnswer, Nak, SealedCardAnswer, Session};

/// How many blocks of a card are value blocks, and the sum of their values. Any two numbers can be handed in, in range or not.
#[derive(Clone, Copy, Debug, Default, PartialEq, Eq)]
pub struct Figures {
    pub count: i64,
    pub sum: i64,
}

impl Figures {
    /// The highest count.
    pub const MOST: i64 = 255;
    /// The ends of the sum's range.
    pub const LOWEST: i64 = Figures::MOST * i32::MIN as i64;
    pub const HIGHEST: i64 = Figures::MOST * i32::MAX as i64;

    /// The sixteen bytes that cross.
    pub fn bytes(self) -> [u8; 16] {
        let mut bytes = [0; 16];
        bytes[..8].copy_from_slice(&self.count.to_le_bytes());
        bytes[8..].copy_from_slice(&self.sum.to_le_bytes());
        bytes
    }

    /// The figures of sixteen bytes: any are some.
    pub fn of_bytes(bytes: [u8; 16]) -> Figures {
        // The count in the low half, the sum in the high one.
        let both = i128::from_le_bytes(bytes);
        Figures {
            count: both as i64,
            sum: (both >> 64) as i64,
        }
    }

    /// Whether a frame with them is not refused by 29 from the start.
    pub fn is_in_range(self) -> bool {
        (0..=Figures::MOST).contains(&self.count)
            && (Figures::LOWEST..=Figures::HIGHEST).contains(&self.sum)
    }
}

/// The figures of a card, counted in full; or 11, which refuses an image that is none of this card's.
pub fn open(image: &[u8], card: Card) -> Result<Figures, u8> {
    let (number, figures) = open_bytes(image, card.bytes());
    match number {
        0 => Ok(Figures::of_bytes(figures)),
        _ => Err(number),
    }
}

/// The same with the record as four bytes, which need not be one: such bytes stand for no card, 11. Gives the number and the sixteen
/// bytes, zeros for a refusal.
pub fn open_bytes(image: &[u8], card: [u8; 4]) -> (u8, [u8; 16]) {
    let mut figures = [0; 16];
    // SAFETY: the pointer comes from a slice of that length, the others from arrays of their own.
    let result = unsafe { ffi::tirlwheel_open(image.as_ptr(), image.len(), &card, &mut figures) };
    (result as u8, figures)
}

/// Frames with figures: those of an opening stay a full count of the image, as long as these calls alone change it.
impl Session {
    /// As [`Session::card_frame`]; the figures are afterwards those that the next frame meets.
    pub fn kept_frame(
        &mut self,
        image: &mut [u8],
        card: &mut Card,
        figures: &mut Figures,
        frame: &[u8],
    ) -> CardAnswer {
        let (mut record, mut bytes) = (card.bytes(), figures.bytes());
        let (result, reply) = self.kept_frame_bytes(image, &mut record, &mut bytes, frame);
        card.take(record);
        *figures = Figures::of_bytes(bytes);
        CardAnswer {
            number: result as u8,
            sign: sign(result),
            nak: Nak::of(*card, result),
            reply,
        }
    }

    /// The same with the record and the figures as bytes, as [`Session::card_frame_bytes`].
    pub fn kept_frame_bytes(
        &mut self,
        image: &mut [u8],
        card: &mut [u8; 4],
        figures: &mut [u8; 16],
        frame: &[u8],
    ) -> (u32, [u8; 16]) {
        let mut reply = [0; 16];
        // SAFETY: each pointer comes from a reference or a slice of that length; exclusive references do not overlap anything.
        let result = unsafe {
            ffi::tirlwheel_kept_frame(
                image.as_mut_ptr(),
                image.len(),
                card,
                figures,
                &mut self.0,
                frame.as_ptr(),
                frame.len(),
                &mut reply,
            )
        };
        (result, reply)
    }

    /// As [`Session::card_sealed_frame`], with figures; it and [`Session::kept_frame`] may be sent in turn.
    pub fn kept_sealed_frame(
        &mut self,
        image: &mut [u8],
        card: &mut Card,
        figures: &mut Figures,
        frame: &[u8],
    ) -> SealedCardAnswer {
        let (mut record, mut bytes) = (card.bytes(), figures.bytes());
        let (result, reply) = self.kept_sealed_frame_bytes(image, &mut record, &mut bytes, frame);
        card.take(record);
        *figures = Figures::of_bytes(bytes);
        SealedCardAnswer {
            number: result as u8,
            sign: sign(result),
            nak: Nak::of(*card, result),
            reply,
        }
    }

    /// The same with the record and the figures as bytes.
    pub fn kept_sealed_frame_bytes(
        &mut self,
        image: &mut [u8],
        card: &mut [u8; 4],
        figures: &mut [u8; 16],
        frame: &[u8],
    ) -> (u32, [u8; 18]) {
        let mut reply = [0; 18];
        // SAFETY: as for a frame.
        let result = unsafe {
            ffi::tirlwheel_kept_sealed_frame(
                image.as_mut_ptr(),
                image.len(),
                card,
                figures,
                &mut self.0,
                frame.as_ptr(),
                frame.len(),
                &mut reply,
            )
        };
        (result, reply)
    }

    /// The reader's field went away and came back; record and figures stay as they are.
    pub fn kept_reset(&mut self, card: &Card, figures: &Figures) -> Answer {
        self.kept_reset_bytes(&card.bytes(), &figures.bytes())
    }

    /// The same with both as bytes, whatever they are.
    pub fn kept_reset_bytes(&mut self, card: &[u8; 4], figures: &[u8; 16]) -> Answer {
        let mut reply = [0; 16];
        // SAFETY: as for a frame.
        let result = unsafe { ffi::tirlwheel_kept_reset(card, figures, &mut self.0, &mut reply) };
        answer(result, reply)
    }
}

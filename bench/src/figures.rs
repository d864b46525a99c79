//! The number and the sum of the value blocks on a card, kept beside its image: the opening, and a frame of either entry and edition with them.
//! Written from paper 02, over the commands of the card without them.

use crate::card::{unsealed, with_seal, Beside, Judged, SealedReply, Session, KEPT, SEALED_KEPT};
use crate::edition::{fit_card, is_size, obey_card, valued, CardRecord, Valued};
use crate::layout::{is_image, is_trailer, BlockBytes, BLOCK_BYTES};
use crate::value::Value;

/// Any two numbers, in range or not.
#[derive(Clone, Copy, PartialEq, Eq, Debug)]
pub struct Figures {
    pub count: i64,
    pub sum: i64,
}

/// The figures as the library's sixteen bytes.
pub type FigureBytes = [u8; 16];

pub const MOST: i64 = 255;
pub const LOWEST: i64 = MOST * i32::MIN as i64;
pub const HIGHEST: i64 = MOST * i32::MAX as i64;
pub const ZERO: Figures = Figures { count: 0, sum: 0 };

impl Figures {
    pub fn of(bytes: &FigureBytes) -> Figures {
        let [count, sum] = [0, 8].map(|at| i64::from_le_bytes(bytes[at..at + 8].try_into().unwrap()));
        Figures { count, sum }
    }

    pub fn bytes(&self) -> FigureBytes {
        let mut bytes = [0; 16];
        bytes[0..8].copy_from_slice(&self.count.to_le_bytes());
        bytes[8..16].copy_from_slice(&self.sum.to_le_bytes());
        bytes
    }

    pub fn is_in_range(&self) -> bool {
        (0..=MOST).contains(&self.count) && (LOWEST..=HIGHEST).contains(&self.sum)
    }
}

/// What a block adds to the figures, by what it reads as.
pub fn share(block: Option<Value>) -> Figures {
    match block {
        None => ZERO,
        Some(value) => Figures { count: 1, sum: value.number.into() },
    }
}

/// For figures in range, which no share takes past the ends of the type.
impl Beside for Figures {
    #[inline(always)]
    fn settle(&mut self, old: Option<Value>, new: Option<Value>) -> Result<(), u8> {
        let (old, new) = (share(old), share(new));
        let settled = Figures { count: self.count - old.count + new.count, sum: self.sum - old.sum + new.sum };
        if !settled.is_in_range() {
            return Err(29);
        }
        *self = settled;
        Ok(())
    }
}

/// Every block but block 0 and the trailers.
pub fn full_count(image: &[u8]) -> Figures {
    let mut figures = ZERO;
    for (block, bytes) in image.chunks_exact(BLOCK_BYTES).enumerate().skip(1) {
        if is_trailer(block as u8) {
            continue;
        }
        let Figures { count, sum } = share(Value::decode(bytes.try_into().unwrap()));
        figures = Figures { count: figures.count + count, sum: figures.sum + sum };
    }
    figures
}

/// The figures of a card, or the refusal where the image is none of this record.
pub fn open(image: &[u8], card: &CardRecord) -> Result<Figures, u8> {
    if !is_image(image) || !is_size(card.edition, image) {
        return Err(11);
    }
    Ok(full_count(image))
}

pub fn frame(image: &mut [u8], card: &mut CardRecord, figures: &mut Figures, session: &mut Session, frame: &[u8], reply: &mut BlockBytes) -> Valued {
    *reply = [0; BLOCK_BYTES];
    valued(card, session, |card, session| judge(image, card, figures, session, frame, reply))
}

pub fn sealed_frame(
    image: &mut [u8],
    card: &mut CardRecord,
    figures: &mut Figures,
    session: &mut Session,
    frame: &[u8],
    reply: &mut SealedReply,
) -> Valued {
    valued(card, session, |card, session| with_seal(reply, |data| judge_sealed(image, card, figures, session, frame, data)))
}

fn judge(image: &mut [u8], card: &mut CardRecord, figures: &mut Figures, session: &mut Session, frame: &[u8], reply: &mut BlockBytes) -> Judged {
    fit_figures::<KEPT>(image, card, figures, session)?;
    obey_card::<KEPT>(image, card, session, figures, frame, reply)
}

fn judge_sealed(
    image: &mut [u8],
    card: &mut CardRecord,
    figures: &mut Figures,
    session: &mut Session,
    frame: &[u8],
    reply: &mut BlockBytes,
) -> Judged {
    fit_figures::<SEALED_KEPT>(image, card, figures, session)?;
    let bytes = unsealed(frame).ok_or(14)?;
    obey_card::<SEALED_KEPT>(image, card, session, figures, bytes, reply)
}

/// The checks that come before the frame's own.
fn fit_figures<const ENTRY: u8>(image: &[u8], card: &CardRecord, figures: &Figures, session: &Session) -> Result<(), u8> {
    fit_card::<ENTRY>(image, card, session)?;
    if !figures.is_in_range() {
        return Err(29);
    }
    Ok(())
}

//! A MIFARE Classic card in software: safe calls of the proved library.
//!
//! The card keeps nothing. The caller owns the image, its [`Card`] record and one [`Session`], and lends them to each call.
//! [`Session::card_frame`] takes a card of either edition; [`Session::frame`] is the short form for an old one. Who wants to know how many
//! value blocks a card has and what they sum up to takes [`Figures`] from [`open`] and lends them to [`Session::kept_frame`] as well.
//! `include/tirlwheel.h` says what each number means.
#![no_std]

mod ffi {
    // A slice is a pointer and a length, in two arguments.
    extern "C" {
        pub fn tirlwheel_frame(
            image: *mut u8,
            image_len: usize,
            session: *mut [u8; 12],
            frame: *const u8,
            frame_len: usize,
            reply: *mut [u8; 16],
        ) -> u32;
        pub fn tirlwheel_sealed_frame(
            image: *mut u8,
            image_len: usize,
            session: *mut [u8; 12],
            frame: *const u8,
            frame_len: usize,
            reply: *mut [u8; 18],
        ) -> u32;
        pub fn tirlwheel_field_reset(session: *mut [u8; 12], reply: *mut [u8; 16]) -> u32;
        pub fn tirlwheel_card_frame(
            image: *mut u8,
            image_len: usize,
            card: *mut [u8; 4],
            session: *mut [u8; 12],
            frame: *const u8,
            frame_len: usize,
            reply: *mut [u8; 16],
        ) -> u32;
        pub fn tirlwheel_card_sealed_frame(
            image: *mut u8,
            image_len: usize,
            card: *mut [u8; 4],
            session: *mut [u8; 12],
            frame: *const u8,
            frame_len: usize,
            reply: *mut [u8; 18],
        ) -> u32;
        pub fn tirlwheel_card_reset(
            card: *mut [u8; 4],
            session: *mut [u8; 12],
            reply: *mut [u8; 16],
        ) -> u32;
        pub fn tirlwheel_open(
            image: *const u8,
            image_len: usize,
            card: *const [u8; 4],
            figures: *mut [u8; 16],
        ) -> u32;
        pub fn tirlwheel_kept_frame(
            image: *mut u8,
            image_len: usize,
            card: *mut [u8; 4],
            figures: *mut [u8; 16],
            session: *mut [u8; 12],
            frame: *const u8,
            frame_len: usize,
            reply: *mut [u8; 16],
        ) -> u32;
        pub fn tirlwheel_kept_sealed_frame(
            image: *mut u8,
            image_len: usize,
            card: *mut [u8; 4],
            figures: *mut [u8; 16],
            session: *mut [u8; 12],
            frame: *const u8,
            frame_len: usize,
            reply: *mut [u8; 18],
        ) -> u32;
        pub fn tirlwheel_kept_reset(
            card: *const [u8; 4],
            figures: *const [u8; 16],
            session: *mut [u8; 12],
            reply: *mut [u8; 16],
        ) -> u32;
        pub fn tirlwheel_play_ev1(
            script: *const u8,
            script_len: usize,
            printout: *mut [u8; 65536],
        ) -> usize;
        pub fn tirlwheel_play(
            script: *const u8,
            script_len: usize,
            printout: *mut [u8; 65536],
        ) -> usize;
        pub fn tirlwheel_lookup(image: *const u8, image_len: usize, application: u32) -> u32;
        pub fn tirlwheel_mend(
            image: *mut u8,
            image_len: usize,
            names: *const u8,
            names_len: usize,
            report: *mut [u8; 768],
        ) -> u32;
        pub fn tirlwheel_write_directory(
            image: *mut u8,
            image_len: usize,
            infos: *const [u8; 2],
            numbers: *const u8,
            numbers_len: usize,
        ) -> u32;
        pub fn tirlwheel_read_directory(
            image: *const u8,
            image_len: usize,
            infos: *mut [u8; 2],
            numbers: *mut [u8; 76],
        ) -> u32;
        pub fn tirlwheel_write_access(
            image: *mut u8,
            image_len: usize,
            sector: u32,
            bits: *const [u8; 4],
        ) -> u32;
        pub fn tirlwheel_read_access(
            image: *const u8,
            image_len: usize,
            sector: u32,
            bits: *mut [u8; 4],
        ) -> u32;
        pub fn tirlwheel_version() -> u32;
    }
}

/// The session of a reader, as its record of twelve bytes.
#[derive(Clone, Copy, Debug, Default, PartialEq, Eq)]
pub struct Session(pub [u8; 12]);

mod card;
mod figures;
mod issue;
pub use card::{Card, Choice, Edition, Nak, Usage};
pub use figures::{open, open_bytes, Figures};
pub use issue::{read_access, read_directory, write_access, write_directory, Directory};

/// What went on the air.
#[derive(Clone, Copy, Debug, PartialEq, Eq)]
pub enum Sign {
    Ack,
    Nak,
    Data,
    Nothing,
}

/// The number (0 is accepted), the sign, and the sixteen bytes of a Read or zeros.
#[derive(Clone, Copy, Debug, PartialEq, Eq)]
pub struct Answer {
    pub number: u8,
    pub sign: Sign,
    pub reply: [u8; 16],
}

/// As [`Answer`], for a frame with its checksum: the reply of a Read has its own behind the sixteen bytes.
#[derive(Clone, Copy, Debug, PartialEq, Eq)]
pub struct SealedAnswer {
    pub number: u8,
    pub sign: Sign,
    pub reply: [u8; 18],
}

/// As [`Answer`], of a card with its record, and the value of an EV1's NAK where there is one.
#[derive(Clone, Copy, Debug, PartialEq, Eq)]
pub struct CardAnswer {
    pub number: u8,
    pub sign: Sign,
    pub nak: Option<Nak>,
    pub reply: [u8; 16],
}

/// As [`CardAnswer`], for a frame with its checksum.
#[derive(Clone, Copy, Debug, PartialEq, Eq)]
pub struct SealedCardAnswer {
    pub number: u8,
    pub sign: Sign,
    pub nak: Option<Nak>,
    pub reply: [u8; 18],
}

/// What a lookup in an image's directory gives: the number (0 where the directory was read), the lowest sector that holds the
/// application's number, and how many entries were looked at.
#[derive(Clone, Copy, Debug, PartialEq, Eq)]
pub struct Lookup {
    pub number: u8,
    pub sector: Option<u8>,
    pub count: u8,
}

/// What is told of one named block: its number (0 where it is sound or was mended), and which of its sixteen bytes changed, bit i
/// for byte i.
#[derive(Clone, Copy, Debug, PartialEq, Eq)]
pub struct Mended {
    pub number: u8,
    pub changed: u16,
}

/// The report on named blocks, three bytes for each.
#[derive(Clone, Copy, Debug, PartialEq, Eq)]
pub struct Report(pub [u8; 768]);

impl Report {
    /// What is told of the block that was named at a place, from 0 on; zeros behind the last name.
    pub fn at(&self, place: usize) -> Mended {
        let row = &self.0[3 * place..3 * place + 3];
        Mended {
            number: row[0],
            changed: u16::from_le_bytes([row[1], row[2]]),
        }
    }
}

/// Room for any printout.
pub type Printout = [u8; 65536];

fn sign(result: u32) -> Sign {
    match result >> 8 & 0xFF {
        0 => Sign::Ack,
        1 => Sign::Nak,
        2 => Sign::Data,
        _ => Sign::Nothing,
    }
}

fn answer(result: u32, reply: [u8; 16]) -> Answer {
    Answer {
        number: result as u8,
        sign: sign(result),
        reply,
    }
}

impl Session {
    /// Nobody authenticated, no second frame awaited, the register empty.
    pub const FRESH: Session = Session([0; 12]);

    /// One frame to an old card: the short form of [`Session::card_frame`]. The session and the image are afterwards those that the
    /// next frame meets.
    pub fn frame(&mut self, image: &mut [u8], frame: &[u8]) -> Answer {
        let mut reply = [0; 16];
        // SAFETY: each pointer comes from a reference or a slice of that length; exclusive references do not overlap anything.
        let result = unsafe {
            ffi::tirlwheel_frame(
                image.as_mut_ptr(),
                image.len(),
                &mut self.0,
                frame.as_ptr(),
                frame.len(),
                &mut reply,
            )
        };
        answer(result, reply)
    }

    /// One frame with its checksum behind it, as a reader chip hands it over, to an old card: the short form of
    /// [`Session::card_sealed_frame`]. It and [`Session::frame`] may be sent in turn.
    pub fn sealed_frame(&mut self, image: &mut [u8], frame: &[u8]) -> SealedAnswer {
        let mut reply = [0; 18];
        // SAFETY: as for a frame.
        let result = unsafe {
            ffi::tirlwheel_sealed_frame(
                image.as_mut_ptr(),
                image.len(),
                &mut self.0,
                frame.as_ptr(),
                frame.len(),
                &mut reply,
            )
        };
        SealedAnswer {
            number: result as u8,
            sign: sign(result),
            reply,
        }
    }

    /// One frame to a card with its record. The session, the record and the image are afterwards those that the next frame meets.
    pub fn card_frame(&mut self, image: &mut [u8], card: &mut Card, frame: &[u8]) -> CardAnswer {
        let mut bytes = card.bytes();
        let (result, reply) = self.card_frame_bytes(image, &mut bytes, frame);
        card.take(bytes);
        CardAnswer {
            number: result as u8,
            sign: sign(result),
            nak: Nak::of(*card, result),
            reply,
        }
    }

    /// The same with the record as four bytes, which need not be one: such bytes stand for no card, 11, and stay as they were.
    /// The result has number, sign and the value of a NAK, from the low byte on.
    pub fn card_frame_bytes(
        &mut self,
        image: &mut [u8],
        card: &mut [u8; 4],
        frame: &[u8],
    ) -> (u32, [u8; 16]) {
        let mut reply = [0; 16];
        // SAFETY: as for a frame.
        let result = unsafe {
            ffi::tirlwheel_card_frame(
                image.as_mut_ptr(),
                image.len(),
                card,
                &mut self.0,
                frame.as_ptr(),
                frame.len(),
                &mut reply,
            )
        };
        (result, reply)
    }

    /// One frame with its checksum behind it to a card with its record; else as [`Session::card_frame`], and both may be sent in turn.
    pub fn card_sealed_frame(
        &mut self,
        image: &mut [u8],
        card: &mut Card,
        frame: &[u8],
    ) -> SealedCardAnswer {
        let mut bytes = card.bytes();
        let (result, reply) = self.card_sealed_frame_bytes(image, &mut bytes, frame);
        card.take(bytes);
        SealedCardAnswer {
            number: result as u8,
            sign: sign(result),
            nak: Nak::of(*card, result),
            reply,
        }
    }

    /// The same with the record as four bytes, as [`Session::card_frame_bytes`].
    pub fn card_sealed_frame_bytes(
        &mut self,
        image: &mut [u8],
        card: &mut [u8; 4],
        frame: &[u8],
    ) -> (u32, [u8; 18]) {
        let mut reply = [0; 18];
        // SAFETY: as for a frame.
        let result = unsafe {
            ffi::tirlwheel_card_sealed_frame(
                image.as_mut_ptr(),
                image.len(),
                card,
                &mut self.0,
                frame.as_ptr(),
                frame.len(),
                &mut reply,
            )
        };
        (result, reply)
    }

    /// The reader's field went away and came back, before a card with its record, which stays as it is.
    pub fn card_reset(&mut self, card: &mut Card) -> Answer {
        let mut bytes = card.bytes();
        let answer = self.card_reset_bytes(&mut bytes);
        card.take(bytes);
        answer
    }

    /// The same with the record as four bytes, which need not be one; they stay as they are.
    pub fn card_reset_bytes(&mut self, card: &mut [u8; 4]) -> Answer {
        let mut reply = [0; 16];
        // SAFETY: as for a frame.
        let result = unsafe { ffi::tirlwheel_card_reset(card, &mut self.0, &mut reply) };
        answer(result, reply)
    }

    /// The reader's field went away and came back, before an old card: the short form of [`Session::card_reset`].
    pub fn field_reset(&mut self) -> Answer {
        let mut reply = [0; 16];
        // SAFETY: as for a frame.
        let result = unsafe { ffi::tirlwheel_field_reset(&mut self.0, &mut reply) };
        answer(result, reply)
    }
}

/// The printout of a script, in the buffer that is lent for it.
pub fn play<'a>(script: &[u8], printout: &'a mut Printout) -> &'a [u8] {
    // SAFETY: as for a frame.
    let length = unsafe { ffi::tirlwheel_play(script.as_ptr(), script.len(), printout) };
    &printout[..length]
}

/// The printout of an EV1's script, in the buffer that is lent for it.
pub fn play_ev1<'a>(script: &[u8], printout: &'a mut Printout) -> &'a [u8] {
    // SAFETY: as for a frame.
    let length = unsafe { ffi::tirlwheel_play_ev1(script.as_ptr(), script.len(), printout) };
    &printout[..length]
}

/// Which sector of an image is an application's. The image is read as it stands, without a session
/// or a record.
pub fn lookup(image: &[u8], application: u32) -> Lookup {
    // SAFETY: the pointer comes from a slice of that length.
    let result = unsafe { ffi::tirlwheel_lookup(image.as_ptr(), image.len(), application) };
    let [number, found, sector, count] = result.to_le_bytes();
    Lookup {
        number,
        sector: (found == 1).then_some(sector),
        count,
    }
}

/// Torn value blocks of an image, mended in the order in which they are named; and the number of the call. The image is taken as
/// it stands, without a session. What other tools keep beside the image must be opened anew afterwards.
pub fn mend(image: &mut [u8], names: &[u8]) -> (u8, Report) {
    let mut report = [0; 768];
    // SAFETY: the pointers come from slices of those lengths, and from an array of its own.
    let result = unsafe {
        ffi::tirlwheel_mend(
            image.as_mut_ptr(),
            image.len(),
            names.as_ptr(),
            names.len(),
            &mut report,
        )
    };
    (result as u8, Report(report))
}

/// Which boundary this is.
pub fn version() -> u32 {
    // SAFETY: it takes nothing.
    unsafe { ffi::tirlwheel_version() }
}

//! The Rust card behind the library's boundary.

use crate::calls::{Card, Printout};
use crate::card::{self, Answer, SealedReply, Session, FRESH, RECORD};
use crate::directory;
use crate::edition::{self, is_size, of_card, to_card, CardBytes, CardRecord, Valued};
use crate::figures::{self, FigureBytes, Figures, ZERO};
use crate::issuing::{self, GroupBits, Infos, Numbers};
use crate::layout::{is_image, BlockBytes};
use crate::mending::{self, Report};
use crate::player;
use crate::record::{of_session, to_session, Record};
use std::slice::{from_raw_parts, from_raw_parts_mut};

pub const CARD: Card = Card {
    frame_call: rust_frame,
    sealed_frame_call: rust_sealed_frame,
    field_reset_call: rust_field_reset,
    card_frame_call: rust_card_frame,
    card_sealed_frame_call: rust_card_sealed_frame,
    card_reset_call: rust_card_reset,
    open_call: rust_open,
    kept_frame_call: rust_kept_frame,
    kept_sealed_frame_call: rust_kept_sealed_frame,
    kept_reset_call: rust_kept_reset,
    play_call: rust_play,
    play_ev1_call: rust_play_ev1,
    lookup_call: rust_lookup,
    mend_call: rust_mend,
    write_directory_call: rust_write_directory,
    read_directory_call: rust_read_directory,
    write_access_call: rust_write_access,
    read_access_call: rust_read_access,
};

fn packed(answer: Answer) -> u32 {
    u32::from(answer.number) | (answer.sign as u32) << 8
}

fn packed_with_value(Valued { answer, value }: Valued) -> u32 {
    packed(answer) | u32::from(value) << 16
}

unsafe extern "C" fn rust_frame(
    image: *mut u8,
    image_len: usize,
    record: *mut Record,
    frame: *const u8,
    frame_len: usize,
    reply: *mut BlockBytes,
) -> u32 {
    let (image, frame) = (from_raw_parts_mut(image, image_len), from_raw_parts(frame, frame_len));
    let send = |image: &mut [u8], session: &mut Session, reply: &mut BlockBytes| card::frame(image, session, frame, reply);
    with_record(image, &mut *record, &mut *reply, send)
}

unsafe extern "C" fn rust_sealed_frame(
    image: *mut u8,
    image_len: usize,
    record: *mut Record,
    frame: *const u8,
    frame_len: usize,
    reply: *mut SealedReply,
) -> u32 {
    let (image, frame) = (from_raw_parts_mut(image, image_len), from_raw_parts(frame, frame_len));
    let send = |image: &mut [u8], session: &mut Session, reply: &mut SealedReply| card::sealed_frame(image, session, frame, reply);
    with_record(image, &mut *record, &mut *reply, send)
}

/// A frame for the session of a record, or the refusal where the bytes are none.
#[inline(always)]
fn with_record<const N: usize>(
    image: &mut [u8],
    record: &mut Record,
    reply: &mut [u8; N],
    send: impl FnOnce(&mut [u8], &mut Session, &mut [u8; N]) -> Answer,
) -> u32 {
    let Some(mut session) = to_session(record) else {
        return refused(if is_image(image) { 12 } else { 11 }, record, reply);
    };
    let answer = send(image, &mut session, reply);
    *record = of_session(&session);
    packed(answer)
}

/// For bytes that are no record: nothing on the air, the fresh session, zeros.
#[inline(always)]
fn refused<const N: usize>(number: u8, record: &mut Record, reply: &mut [u8; N]) -> u32 {
    *record = of_session(&FRESH);
    *reply = [0; N];
    packed(card::refusal(number))
}

unsafe extern "C" fn rust_field_reset(record: *mut Record, reply: *mut BlockBytes) -> u32 {
    reset(&mut *record, &mut *reply)
}

#[inline(always)]
fn reset(record: &mut Record, reply: &mut BlockBytes) -> u32 {
    let mut session = FRESH;
    let answer = card::field_reset(&mut session, reply);
    *record = of_session(&session);
    packed(answer)
}

unsafe extern "C" fn rust_card_frame(
    image: *mut u8,
    image_len: usize,
    card: *mut CardBytes,
    record: *mut Record,
    frame: *const u8,
    frame_len: usize,
    reply: *mut BlockBytes,
) -> u32 {
    let (image, frame) = (from_raw_parts_mut(image, image_len), from_raw_parts(frame, frame_len));
    let send = |image: &mut [u8], card: &mut CardRecord, session: &mut Session, reply: &mut BlockBytes| {
        edition::frame::<RECORD>(image, card, session, frame, reply)
    };
    with_card(image, &mut *card, &mut *record, &mut *reply, send)
}

unsafe extern "C" fn rust_card_sealed_frame(
    image: *mut u8,
    image_len: usize,
    card: *mut CardBytes,
    record: *mut Record,
    frame: *const u8,
    frame_len: usize,
    reply: *mut SealedReply,
) -> u32 {
    let (image, frame) = (from_raw_parts_mut(image, image_len), from_raw_parts(frame, frame_len));
    let send = |image: &mut [u8], card: &mut CardRecord, session: &mut Session, reply: &mut SealedReply| {
        edition::sealed_frame(image, card, session, frame, reply)
    };
    with_card(image, &mut *card, &mut *record, &mut *reply, send)
}

/// A frame for the card and the session of two records, or the refusal where the bytes are none.
#[inline(always)]
fn with_card<const N: usize>(
    image: &mut [u8],
    bytes: &mut CardBytes,
    record: &mut Record,
    reply: &mut [u8; N],
    send: impl FnOnce(&mut [u8], &mut CardRecord, &mut Session, &mut [u8; N]) -> Valued,
) -> u32 {
    let Some(mut card) = to_card(bytes) else {
        return refused(11, record, reply);
    };
    let Some(mut session) = to_session(record) else {
        let has_card = is_image(image) && is_size(card.edition, image);
        return refused(if has_card { 12 } else { 11 }, record, reply);
    };
    let answer = send(image, &mut card, &mut session, reply);
    *record = of_session(&session);
    *bytes = of_card(&card);
    packed_with_value(answer)
}

/// The card's bytes stay, whatever they are.
unsafe extern "C" fn rust_card_reset(_: *mut CardBytes, record: *mut Record, reply: *mut BlockBytes) -> u32 {
    reset(&mut *record, &mut *reply)
}

/// Four bytes that are no record stand for no card.
unsafe extern "C" fn rust_open(image: *const u8, image_len: usize, card: *const CardBytes, figures: *mut FigureBytes) -> u32 {
    let opened = to_card(&*card).ok_or(11).and_then(|card| figures::open(from_raw_parts(image, image_len), &card));
    *figures = opened.unwrap_or(ZERO).bytes();
    opened.err().unwrap_or(0).into()
}

unsafe extern "C" fn rust_kept_frame(
    image: *mut u8,
    image_len: usize,
    card: *mut CardBytes,
    figures: *mut FigureBytes,
    record: *mut Record,
    frame: *const u8,
    frame_len: usize,
    reply: *mut BlockBytes,
) -> u32 {
    let (image, frame) = (from_raw_parts_mut(image, image_len), from_raw_parts(frame, frame_len));
    let send = |image: &mut [u8], card: &mut CardRecord, session: &mut Session, reply: &mut BlockBytes| {
        with_figures(&mut *figures, |figures| figures::frame(image, card, figures, session, frame, reply))
    };
    with_card(image, &mut *card, &mut *record, &mut *reply, send)
}

unsafe extern "C" fn rust_kept_sealed_frame(
    image: *mut u8,
    image_len: usize,
    card: *mut CardBytes,
    figures: *mut FigureBytes,
    record: *mut Record,
    frame: *const u8,
    frame_len: usize,
    reply: *mut SealedReply,
) -> u32 {
    let (image, frame) = (from_raw_parts_mut(image, image_len), from_raw_parts(frame, frame_len));
    let send = |image: &mut [u8], card: &mut CardRecord, session: &mut Session, reply: &mut SealedReply| {
        with_figures(&mut *figures, |figures| figures::sealed_frame(image, card, figures, session, frame, reply))
    };
    with_card(image, &mut *card, &mut *record, &mut *reply, send)
}

#[inline(always)]
fn with_figures(bytes: &mut FigureBytes, send: impl FnOnce(&mut Figures) -> Valued) -> Valued {
    let mut figures = Figures::of(bytes);
    let answer = send(&mut figures);
    *bytes = figures.bytes();
    answer
}

/// Both stay, whatever they are.
unsafe extern "C" fn rust_kept_reset(_: *const CardBytes, _: *const FigureBytes, record: *mut Record, reply: *mut BlockBytes) -> u32 {
    reset(&mut *record, &mut *reply)
}

unsafe extern "C" fn rust_play(script: *const u8, script_len: usize, printout: *mut Printout) -> usize {
    player::play(from_raw_parts(script, script_len), &mut *printout)
}

unsafe extern "C" fn rust_play_ev1(script: *const u8, script_len: usize, printout: *mut Printout) -> usize {
    player::play_ev1(from_raw_parts(script, script_len), &mut *printout)
}

unsafe extern "C" fn rust_lookup(image: *const u8, image_len: usize, application: u32) -> u32 {
    let found = directory::lookup(from_raw_parts(image, image_len), application);
    u32::from_le_bytes([found.number, found.sector.is_some() as u8, found.sector.unwrap_or(0), found.count])
}

unsafe extern "C" fn rust_mend(image: *mut u8, image_len: usize, names: *const u8, names_len: usize, report: *mut Report) -> u32 {
    let (image, names) = (from_raw_parts_mut(image, image_len), from_raw_parts(names, names_len));
    mending::mend(image, names, &mut *report).into()
}

unsafe extern "C" fn rust_write_directory(image: *mut u8, image_len: usize, infos: *const Infos, numbers: *const u8, numbers_len: usize) -> u32 {
    let (image, numbers) = (from_raw_parts_mut(image, image_len), from_raw_parts(numbers, numbers_len));
    issuing::write_directory(image, &*infos, numbers).into()
}

unsafe extern "C" fn rust_read_directory(image: *const u8, image_len: usize, infos: *mut Infos, numbers: *mut Numbers) -> u32 {
    let (number, version) = issuing::read_directory(from_raw_parts(image, image_len), &mut *infos, &mut *numbers);
    u32::from_le_bytes([number, version, 0, 0])
}

unsafe extern "C" fn rust_write_access(image: *mut u8, image_len: usize, sector: u32, bits: *const GroupBits) -> u32 {
    issuing::write_access(from_raw_parts_mut(image, image_len), sector, &*bits).into()
}

unsafe extern "C" fn rust_read_access(image: *const u8, image_len: usize, sector: u32, bits: *mut GroupBits) -> u32 {
    issuing::read_access(from_raw_parts(image, image_len), sector, &mut *bits).into()
}

//! The two cards under one set of calls, those of include/tirlwheel.h: the proved libraries, and the Rust card behind the same boundary.

use crate::card::SealedReply;
use crate::edition::{CardBytes, Edition};
use crate::figures::FigureBytes;
use crate::issuing::{GroupBits, Infos, Numbers};
use crate::layout::BlockBytes;
use crate::mending::Report;
use crate::record::Record;
use crate::rust_calls;

pub const PRINTOUT_BYTES: usize = 65536;
pub type Printout = [u8; PRINTOUT_BYTES];

pub type FrameCall = unsafe extern "C" fn(*mut u8, usize, *mut Record, *const u8, usize, *mut BlockBytes) -> u32;
pub type SealedFrameCall = unsafe extern "C" fn(*mut u8, usize, *mut Record, *const u8, usize, *mut SealedReply) -> u32;
pub type FieldResetCall = unsafe extern "C" fn(*mut Record, *mut BlockBytes) -> u32;
pub type CardFrameCall = unsafe extern "C" fn(*mut u8, usize, *mut CardBytes, *mut Record, *const u8, usize, *mut BlockBytes) -> u32;
pub type CardSealedFrameCall = unsafe extern "C" fn(*mut u8, usize, *mut CardBytes, *mut Record, *const u8, usize, *mut SealedReply) -> u32;
pub type CardResetCall = unsafe extern "C" fn(*mut CardBytes, *mut Record, *mut BlockBytes) -> u32;
pub type OpenCall = unsafe extern "C" fn(*const u8, usize, *const CardBytes, *mut FigureBytes) -> u32;
pub type KeptFrameCall =
    unsafe extern "C" fn(*mut u8, usize, *mut CardBytes, *mut FigureBytes, *mut Record, *const u8, usize, *mut BlockBytes) -> u32;
pub type KeptSealedFrameCall =
    unsafe extern "C" fn(*mut u8, usize, *mut CardBytes, *mut FigureBytes, *mut Record, *const u8, usize, *mut SealedReply) -> u32;
pub type KeptResetCall = unsafe extern "C" fn(*const CardBytes, *const FigureBytes, *mut Record, *mut BlockBytes) -> u32;
pub type PlayCall = unsafe extern "C" fn(*const u8, usize, *mut Printout) -> usize;
pub type LookupCall = unsafe extern "C" fn(*const u8, usize, u32) -> u32;
pub type MendCall = unsafe extern "C" fn(*mut u8, usize, *const u8, usize, *mut Report) -> u32;
pub type WriteDirectoryCall = unsafe extern "C" fn(*mut u8, usize, *const Infos, *const u8, usize) -> u32;
pub type ReadDirectoryCall = unsafe extern "C" fn(*const u8, usize, *mut Infos, *mut Numbers) -> u32;
pub type WriteAccessCall = unsafe extern "C" fn(*mut u8, usize, u32, *const GroupBits) -> u32;
pub type ReadAccessCall = unsafe extern "C" fn(*const u8, usize, u32, *mut GroupBits) -> u32;

extern "C" {
    fn tirlwheel_frame(image: *mut u8, image_len: usize, session: *mut Record, frame: *const u8, frame_len: usize, reply: *mut BlockBytes) -> u32;
    fn tirlwheel_sealed_frame(
        image: *mut u8,
        image_len: usize,
        session: *mut Record,
        frame: *const u8,
        frame_len: usize,
        reply: *mut SealedReply,
    ) -> u32;
    fn tirlwheel_field_reset(session: *mut Record, reply: *mut BlockBytes) -> u32;
    fn tirlwheel_card_frame(
        image: *mut u8,
        image_len: usize,
        card: *mut CardBytes,
        session: *mut Record,
        frame: *const u8,
        frame_len: usize,
        reply: *mut BlockBytes,
    ) -> u32;
    fn tirlwheel_card_sealed_frame(
        image: *mut u8,
        image_len: usize,
        card: *mut CardBytes,
        session: *mut Record,
        frame: *const u8,
        frame_len: usize,
        reply: *mut SealedReply,
    ) -> u32;
    fn tirlwheel_card_reset(card: *mut CardBytes, session: *mut Record, reply: *mut BlockBytes) -> u32;
    fn tirlwheel_open(image: *const u8, image_len: usize, card: *const CardBytes, figures: *mut FigureBytes) -> u32;
    fn tirlwheel_kept_frame(
        image: *mut u8,
        image_len: usize,
        card: *mut CardBytes,
        figures: *mut FigureBytes,
        session: *mut Record,
        frame: *const u8,
        frame_len: usize,
        reply: *mut BlockBytes,
    ) -> u32;
    fn tirlwheel_kept_sealed_frame(
        image: *mut u8,
        image_len: usize,
        card: *mut CardBytes,
        figures: *mut FigureBytes,
        session: *mut Record,
        frame: *const u8,
        frame_len: usize,
        reply: *mut SealedReply,
    ) -> u32;
    fn tirlwheel_kept_reset(card: *const CardBytes, figures: *const FigureBytes, session: *mut Record, reply: *mut BlockBytes) -> u32;
    fn tirlwheel_play(script: *const u8, script_len: usize, printout: *mut Printout) -> usize;
    fn tirlwheel_play_ev1(script: *const u8, script_len: usize, printout: *mut Printout) -> usize;
    fn tirlwheel_lookup(image: *const u8, image_len: usize, application: u32) -> u32;
    fn tirlwheel_mend(image: *mut u8, image_len: usize, names: *const u8, names_len: usize, report: *mut Report) -> u32;
    fn tirlwheel_write_directory(image: *mut u8, image_len: usize, infos: *const Infos, numbers: *const u8, numbers_len: usize) -> u32;
    fn tirlwheel_read_directory(image: *const u8, image_len: usize, infos: *mut Infos, numbers: *mut Numbers) -> u32;
    fn tirlwheel_write_access(image: *mut u8, image_len: usize, sector: u32, bits: *const GroupBits) -> u32;
    fn tirlwheel_read_access(image: *const u8, image_len: usize, sector: u32, bits: *mut GroupBits) -> u32;
}

#[derive(Clone, Copy)]
pub struct Card {
    pub frame_call: FrameCall,
    pub sealed_frame_call: SealedFrameCall,
    pub field_reset_call: FieldResetCall,
    pub card_frame_call: CardFrameCall,
    pub card_sealed_frame_call: CardSealedFrameCall,
    pub card_reset_call: CardResetCall,
    pub open_call: OpenCall,
    pub kept_frame_call: KeptFrameCall,
    pub kept_sealed_frame_call: KeptSealedFrameCall,
    pub kept_reset_call: KeptResetCall,
    pub play_call: PlayCall,
    pub play_ev1_call: PlayCall,
    pub lookup_call: LookupCall,
    pub mend_call: MendCall,
    pub write_directory_call: WriteDirectoryCall,
    pub read_directory_call: ReadDirectoryCall,
    pub write_access_call: WriteAccessCall,
    pub read_access_call: ReadAccessCall,
}

pub const LIBRARY: Card = Card {
    frame_call: tirlwheel_frame,
    sealed_frame_call: tirlwheel_sealed_frame,
    field_reset_call: tirlwheel_field_reset,
    card_frame_call: tirlwheel_card_frame,
    card_sealed_frame_call: tirlwheel_card_sealed_frame,
    card_reset_call: tirlwheel_card_reset,
    open_call: tirlwheel_open,
    kept_frame_call: tirlwheel_kept_frame,
    kept_sealed_frame_call: tirlwheel_kept_sealed_frame,
    kept_reset_call: tirlwheel_kept_reset,
    play_call: tirlwheel_play,
    play_ev1_call: tirlwheel_play_ev1,
    lookup_call: tirlwheel_lookup,
    mend_call: tirlwheel_mend,
    write_directory_call: tirlwheel_write_directory,
    read_directory_call: tirlwheel_read_directory,
    write_access_call: tirlwheel_write_access,
    read_access_call: tirlwheel_read_access,
};
pub const RUST: Card = rust_calls::CARD;

impl Card {
    /// Number in the low byte of the result, sign in the next.
    pub fn frame(&self, image: &mut [u8], session: &mut Record, frame: &[u8], reply: &mut BlockBytes) -> u32 {
        // SAFETY: true lengths, and distinct borrows do not overlap.
        unsafe { (self.frame_call)(image.as_mut_ptr(), image.len(), session, frame.as_ptr(), frame.len(), reply) }
    }

    pub fn sealed_frame(&self, image: &mut [u8], session: &mut Record, frame: &[u8], reply: &mut SealedReply) -> u32 {
        // SAFETY: as for a frame.
        unsafe { (self.sealed_frame_call)(image.as_mut_ptr(), image.len(), session, frame.as_ptr(), frame.len(), reply) }
    }

    pub fn field_reset(&self, session: &mut Record, reply: &mut BlockBytes) -> u32 {
        // SAFETY: distinct borrows do not overlap.
        unsafe { (self.field_reset_call)(session, reply) }
    }

    /// Number, sign and the value of a NAK, from the low byte on.
    pub fn card_frame(&self, image: &mut [u8], card: &mut CardBytes, session: &mut Record, frame: &[u8], reply: &mut BlockBytes) -> u32 {
        // SAFETY: as for a frame.
        unsafe { (self.card_frame_call)(image.as_mut_ptr(), image.len(), card, session, frame.as_ptr(), frame.len(), reply) }
    }

    pub fn card_sealed_frame(&self, image: &mut [u8], card: &mut CardBytes, session: &mut Record, frame: &[u8], reply: &mut SealedReply) -> u32 {
        // SAFETY: as for a frame.
        unsafe { (self.card_sealed_frame_call)(image.as_mut_ptr(), image.len(), card, session, frame.as_ptr(), frame.len(), reply) }
    }

    pub fn card_reset(&self, card: &mut CardBytes, session: &mut Record, reply: &mut BlockBytes) -> u32 {
        // SAFETY: distinct borrows do not overlap.
        unsafe { (self.card_reset_call)(card, session, reply) }
    }

    /// The number of the call.
    pub fn open(&self, image: &[u8], card: &CardBytes, figures: &mut FigureBytes) -> u32 {
        // SAFETY: true length, and distinct borrows do not overlap.
        unsafe { (self.open_call)(image.as_ptr(), image.len(), card, figures) }
    }

    /// As for a frame to a card with its record.
    pub fn kept_frame(
        &self,
        image: &mut [u8],
        card: &mut CardBytes,
        figures: &mut FigureBytes,
        session: &mut Record,
        frame: &[u8],
        reply: &mut BlockBytes,
    ) -> u32 {
        // SAFETY: as for a frame.
        unsafe { (self.kept_frame_call)(image.as_mut_ptr(), image.len(), card, figures, session, frame.as_ptr(), frame.len(), reply) }
    }

    pub fn kept_sealed_frame(
        &self,
        image: &mut [u8],
        card: &mut CardBytes,
        figures: &mut FigureBytes,
        session: &mut Record,
        frame: &[u8],
        reply: &mut SealedReply,
    ) -> u32 {
        // SAFETY: as for a frame.
        unsafe { (self.kept_sealed_frame_call)(image.as_mut_ptr(), image.len(), card, figures, session, frame.as_ptr(), frame.len(), reply) }
    }

    /// Both are lent as they are in a run, though the call may only read them.
    pub fn kept_reset(&self, card: &mut CardBytes, figures: &mut FigureBytes, session: &mut Record, reply: &mut BlockBytes) -> u32 {
        // SAFETY: distinct borrows do not overlap.
        unsafe { (self.kept_reset_call)(card, figures, session, reply) }
    }

    /// The length of the printout of an edition's player.
    pub fn play(&self, edition: Edition, script: &[u8], printout: &mut Printout) -> usize {
        // SAFETY: true length, and distinct borrows do not overlap.
        unsafe { (self.player(edition))(script.as_ptr(), script.len(), printout) }
    }

    pub fn player(&self, edition: Edition) -> PlayCall {
        match edition {
            Edition::Old => self.play_call,
            Edition::Ev1 => self.play_ev1_call,
        }
    }

    /// Number, flag, sector and count, from the low byte on.
    pub fn lookup(&self, image: &[u8], application: u32) -> u32 {
        // SAFETY: true length.
        unsafe { (self.lookup_call)(image.as_ptr(), image.len(), application) }
    }

    /// The number of the call.
    pub fn mend(&self, image: &mut [u8], names: &[u8], report: &mut Report) -> u32 {
        // SAFETY: true lengths, and distinct borrows do not overlap.
        unsafe { (self.mend_call)(image.as_mut_ptr(), image.len(), names.as_ptr(), names.len(), report) }
    }
    /// The number of the call.
    pub fn write_directory(&self, image: &mut [u8], infos: &Infos, numbers: &[u8]) -> u32 {
        // SAFETY: true lengths, and distinct borrows do not overlap.
        unsafe { (self.write_directory_call)(image.as_mut_ptr(), image.len(), infos, numbers.as_ptr(), numbers.len()) }
    }

    /// Number and version, from the low byte on.
    pub fn read_directory(&self, image: &[u8], infos: &mut Infos, numbers: &mut Numbers) -> u32 {
        // SAFETY: true length, and distinct borrows do not overlap.
        unsafe { (self.read_directory_call)(image.as_ptr(), image.len(), infos, numbers) }
    }

    /// The number of the call.
    pub fn write_access(&self, image: &mut [u8], sector: u32, bits: &GroupBits) -> u32 {
        // SAFETY: true length, and distinct borrows do not overlap.
        unsafe { (self.write_access_call)(image.as_mut_ptr(), image.len(), sector, bits) }
    }

    /// The number of the call.
    pub fn read_access(&self, image: &[u8], sector: u32, bits: &mut GroupBits) -> u32 {
        // SAFETY: true length, and distinct borrows do not overlap.
        unsafe { (self.read_access_call)(image.as_ptr(), image.len(), sector, bits) }
    }
}

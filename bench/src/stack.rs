//! Bytes of stack that a call uses: it runs on a stack of its own, painted, and the lowest byte that changed says how deep it went.

use crate::calls::{Card, LIBRARY, PRINTOUT_BYTES, RUST};
use crate::card::SEALED_BYTES;
use crate::cases::{self, Case, Desk, Issue, Lookup, Mending, Opening, Played};
use crate::issuing::NUMBERS_BYTES;
use crate::mending::REPORT_BYTES;
use crate::reader::Sent;
use crate::side::Held;
use crate::speed::RIDES;
use std::arch::asm;

const STACK_BYTES: usize = 256 * 1024;

#[repr(align(64))]
struct Stack([u8; STACK_BYTES]);

/// Calls a C function of at most eight whole numbers or pointers on the given stack. The seventh and the eighth lie on it, and count.
///
/// # Safety
/// The arguments must be those that the function expects, and the stack deep enough.
unsafe fn call_on(stack: &mut Stack, function: *const (), arguments: &[usize]) {
    let mut top = stack.0.as_mut_ptr().add(STACK_BYTES);
    if arguments.len() > 6 {
        // The stack stays aligned to sixteen bytes.
        top = top.sub(16);
        for (place, argument) in arguments[6..].iter().enumerate() {
            top.cast::<usize>().add(place).write(*argument);
        }
    }
    let argument = |place: usize| arguments.get(place).copied().unwrap_or(0);
    asm!(
        "mov r12, rsp",
        "mov rsp, {top}",
        "call {function}",
        "mov rsp, r12",
        top = in(reg) top,
        function = in(reg) function,
        in("rdi") argument(0),
        in("rsi") argument(1),
        in("rdx") argument(2),
        in("rcx") argument(3),
        in("r8") argument(4),
        in("r9") argument(5),
        out("r12") _,
        clobber_abi("C"),
    );
}

/// The return address of the call itself counts: the caller pays for it.
fn depth(stack: &mut Stack, mut call: impl FnMut(&mut Stack)) -> usize {
    // A byte that is written with the paint's own value shows under the other paint.
    let depths = [0xA5, 0x5A].map(|paint| {
        stack.0.fill(paint);
        call(stack);
        STACK_BYTES - stack.0.iter().position(|byte| *byte != paint).unwrap_or(STACK_BYTES)
    });
    depths[0].max(depths[1]).next_multiple_of(size_of::<usize>())
}

fn of_case(stack: &mut Stack, card: &Card, case: &Case) -> Option<usize> {
    let (start, sent) = case.only()?;
    let mut image = case.image.clone();
    Some(depth(stack, |stack| {
        let (mut held, mut reply) = (start, [0u8; SEALED_BYTES]);
        let function = function_of(card, sent, &held);
        let mut arguments: Vec<usize> = [
            held.card.as_mut().map(|card| card.as_mut_ptr()),
            held.figures.as_mut().map(|figures| figures.as_mut_ptr()),
            Some(held.session.as_mut_ptr()),
        ]
        .into_iter()
        .flatten()
        .map(|pointer| pointer as usize)
        .collect();
        if let Sent::Frame(frame) | Sent::Sealed(frame) = sent {
            arguments.splice(0..0, [image.as_mut_ptr() as usize, image.len()]);
            arguments.extend([frame.as_ptr() as usize, frame.len()]);
        }
        arguments.push(reply.as_mut_ptr() as usize);
        // SAFETY: the arguments are those of include/tirlwheel.h, with true lengths.
        unsafe { call_on(stack, function, &arguments) }
    }))
}

fn function_of(card: &Card, sent: &Sent, held: &Held) -> *const () {
    match (sent, held.card, held.figures) {
        (Sent::Frame(_), None, _) => card.frame_call as *const (),
        (Sent::Sealed(_), None, _) => card.sealed_frame_call as *const (),
        (Sent::FieldReset, None, _) => card.field_reset_call as *const (),
        (Sent::Frame(_), Some(_), None) => card.card_frame_call as *const (),
        (Sent::Sealed(_), Some(_), None) => card.card_sealed_frame_call as *const (),
        (Sent::FieldReset, Some(_), None) => card.card_reset_call as *const (),
        (Sent::Frame(_), Some(_), Some(_)) => card.kept_frame_call as *const (),
        (Sent::Sealed(_), Some(_), Some(_)) => card.kept_sealed_frame_call as *const (),
        (Sent::FieldReset, Some(_), Some(_)) => card.kept_reset_call as *const (),
    }
}

fn of_opening(stack: &mut Stack, card: &Card, opening: &Opening) -> usize {
    let mut figures = [0u8; 16];
    depth(stack, |stack| {
        let (image, record) = (&opening.image, opening.card.as_ptr() as usize);
        let arguments = [image.as_ptr() as usize, image.len(), record, figures.as_mut_ptr() as usize];
        // SAFETY: as above.
        unsafe { call_on(stack, card.open_call as *const (), &arguments) }
    })
}

fn of_play(stack: &mut Stack, card: &Card, Played { edition, script, .. }: &Played) -> usize {
    let mut printout = vec![0u8; PRINTOUT_BYTES];
    depth(stack, |stack| {
        let arguments = [script.as_ptr() as usize, script.len(), printout.as_mut_ptr() as usize];
        // SAFETY: as above.
        unsafe { call_on(stack, card.player(*edition) as *const (), &arguments) }
    })
}

fn of_lookup(stack: &mut Stack, card: &Card, lookup: &Lookup) -> usize {
    depth(stack, |stack| {
        let arguments = [lookup.image.as_ptr() as usize, lookup.image.len(), lookup.application as usize];
        // SAFETY: as above.
        unsafe { call_on(stack, card.lookup_call as *const (), &arguments) }
    })
}

fn of_mending(stack: &mut Stack, card: &Card, mending: &Mending) -> usize {
    let (mut image, mut report) = (mending.image.clone(), [0u8; REPORT_BYTES]);
    depth(stack, |stack| {
        let (names, report) = (&mending.names, report.as_mut_ptr() as usize);
        let arguments = [image.as_mut_ptr() as usize, image.len(), names.as_ptr() as usize, names.len(), report];
        // SAFETY: as above.
        unsafe { call_on(stack, card.mend_call as *const (), &arguments) }
    })
}

fn of_issue(stack: &mut Stack, card: &Card, Issue { image, call, .. }: &Issue) -> usize {
    let (mut image, mut infos, mut numbers, mut read) = (image.clone(), [0u8; 2], [0u8; NUMBERS_BYTES], [0u8; 4]);
    depth(stack, |stack| {
        let (start, length) = (image.as_mut_ptr() as usize, image.len());
        let (function, arguments) = match call {
            Desk::WriteDirectory(infos, numbers) => {
                (card.write_directory_call as *const (), vec![start, length, infos.as_ptr() as usize, numbers.as_ptr() as usize, numbers.len()])
            }
            Desk::ReadDirectory => {
                (card.read_directory_call as *const (), vec![start, length, infos.as_mut_ptr() as usize, numbers.as_mut_ptr() as usize])
            }
            Desk::WriteAccess(sector, bits) => (card.write_access_call as *const (), vec![start, length, *sector as usize, bits.as_ptr() as usize]),
            Desk::ReadAccess(sector) => (card.read_access_call as *const (), vec![start, length, *sector as usize, read.as_mut_ptr() as usize]),
        };
        // SAFETY: as above.
        unsafe { call_on(stack, function, &arguments) }
    })
}

pub fn print_table() {
    let mut stack: Box<Stack> = unsafe { Box::new_zeroed().assume_init() };
    println!("{:36} {:>8} {:>8}", "bytes of stack", "library", "Rust");
    for case in cases::all() {
        if let (Some(library), Some(rust)) = (of_case(&mut stack, &LIBRARY, &case), of_case(&mut stack, &RUST, &case)) {
            println!("{:36} {library:8} {rust:8}", case.name);
        }
    }
    for played in cases::ride_scripts(RIDES) {
        let (library, rust) = (of_play(&mut stack, &LIBRARY, &played), of_play(&mut stack, &RUST, &played));
        println!("{:36} {library:8} {rust:8}", played.name);
    }
    for lookup in cases::lookups() {
        let (library, rust) = (of_lookup(&mut stack, &LIBRARY, &lookup), of_lookup(&mut stack, &RUST, &lookup));
        println!("{:36} {library:8} {rust:8}", lookup.name);
    }
    for mending in cases::mendings() {
        let (library, rust) = (of_mending(&mut stack, &LIBRARY, &mending), of_mending(&mut stack, &RUST, &mending));
        println!("{:36} {library:8} {rust:8}", mending.name);
    }
    for issue in cases::issues() {
        let (library, rust) = (of_issue(&mut stack, &LIBRARY, &issue), of_issue(&mut stack, &RUST, &issue));
        println!("{:36} {library:8} {rust:8}", issue.name);
    }
    for opening in cases::openings() {
        let (library, rust) = (of_opening(&mut stack, &LIBRARY, &opening), of_opening(&mut stack, &RUST, &opening));
        println!("{:36} {library:8} {rust:8}", opening.name);
    }
}

//! The calls of bundles as the engine answers them, across its C face.

use super::call::{After, Call, Loan, Name};
use crate::call::Answer;

#[link(name = "engine", kind = "static")]
unsafe extern "C" {
    fn lupiknam_bundle_split(
        r: u32,
        integer: u64,
        residues: *mut u8,
        residues_length: usize,
    ) -> Answer;

    fn lupiknam_bundle_join(
        r: u32,
        residues: *const u8,
        residues_length: usize,
        integer: *mut u64,
    ) -> Answer;

    fn lupiknam_bundle_add(
        r: u32,
        first: u32,
        a: u32,
        b: u32,
        file: *mut u8,
        file_length: usize,
        words: *mut u32,
    ) -> Answer;

    fn lupiknam_bundle_multiply(
        r: u32,
        first: u32,
        a: u32,
        b: u32,
        file: *mut u8,
        file_length: usize,
        words: *mut u32,
    ) -> Answer;

    fn lupiknam_bundle_scale(
        r: u32,
        first: u32,
        constant: u64,
        a: u32,
        file: *mut u8,
        file_length: usize,
        words: *mut u32,
    ) -> Answer;
}

/// Makes a call of the engine.
pub fn run(call: &Call) -> After {
    let mut loan = call.loan();
    let answer = made(call, &mut loan);
    After { answer, loan }
}

fn made(call: &Call, loan: &mut Loan) -> Answer {
    let Call {
        r,
        integer,
        first,
        a,
        b,
        ..
    } = *call;
    let (buffer, length) = loan.buffer.pointer();
    let (words, joined) = (&mut loan.words[0], &mut loan.integer[0]);
    // SAFETY, of all calls: the slice and the numbers are live for the call and do not overlap.
    match call.name {
        Name::Split => unsafe { lupiknam_bundle_split(r, integer, buffer, length) },
        Name::Join => unsafe { lupiknam_bundle_join(r, buffer, length, joined) },
        Name::Add => unsafe { lupiknam_bundle_add(r, first, a, b, buffer, length, words) },
        Name::Multiply => unsafe {
            lupiknam_bundle_multiply(r, first, a, b, buffer, length, words)
        },
        Name::Scale => unsafe {
            lupiknam_bundle_scale(r, first, integer, a, buffer, length, words)
        },
    }
}

//! The calls of a round, and carrying an old total over, as the engine answers them, across its C
//! face.

use super::carry::{Carry, Held};
use super::step::{Name, Step};
use crate::call::{After, Answer, Lent, Loan};
use compare::meter::ACCOUNTS;

/// The meter as C has it.
#[repr(C)]
pub struct Meter {
    totals: [u32; ACCOUNTS],
}

#[link(name = "engine", kind = "static")]
unsafe extern "C" {
    fn lupiknam_garble(
        file: *const u8,
        file_length: usize,
        n: u32,
        k: u32,
        round: u32,
        account: u32,
        contributions: *const u8,
        contributions_length: usize,
        rows: *mut u8,
        rows_length: usize,
        input_masks: *mut u8,
        input_masks_length: usize,
        output_masks: *mut u8,
        output_masks_length: usize,
        meter: *mut Meter,
    ) -> Answer;

    fn lupiknam_meter_carry(total: u32, meter: *mut Meter);

    fn lupiknam_externals(
        file: *const u8,
        file_length: usize,
        n: u32,
        party: u32,
        values: *const u8,
        values_length: usize,
        masks: *const u8,
        masks_length: usize,
        externals: *mut u8,
        externals_length: usize,
    ) -> Answer;

    fn lupiknam_input_keys(
        file: *const u8,
        file_length: usize,
        n: u32,
        k: u32,
        party: u32,
        contribution: *const u8,
        contribution_length: usize,
        externals: *const u8,
        externals_length: usize,
        keys: *mut u8,
        keys_length: usize,
    ) -> Answer;

    fn lupiknam_open(
        file: *const u8,
        file_length: usize,
        n: u32,
        k: u32,
        party: u32,
        round: u32,
        contribution: *const u8,
        contribution_length: usize,
        externals: *const u8,
        externals_length: usize,
        keys: *const u8,
        keys_length: usize,
        rows: *const u8,
        rows_length: usize,
        wire_keys: *mut u8,
        wire_keys_length: usize,
        wire_externals: *mut u8,
        wire_externals_length: usize,
    ) -> Answer;

    fn lupiknam_decode(
        file: *const u8,
        file_length: usize,
        n: u32,
        party: u32,
        externals: *const u8,
        externals_length: usize,
        masks: *const u8,
        masks_length: usize,
        outputs: *mut u8,
        outputs_length: usize,
    ) -> Answer;
}

/// Makes a call of the engine.
pub fn run(step: &Step) -> After {
    let mut loan = step.loan();
    let answer = match step.name {
        Name::Garble => garble(step, &mut loan),
        Name::Externals => externals(step, &mut loan),
        Name::InputKeys => input_keys(step, &mut loan),
        Name::Open => open(step, &mut loan),
        Name::Decode => decode(step, &mut loan),
    };
    After { answer, loan }
}

/// The pointers and lengths of all buffers, of which there are as many as asked for.
pub fn pointers<const N: usize>(buffers: &mut [Lent]) -> [(*mut u8, usize); N] {
    let all: Vec<_> = buffers.iter_mut().map(Lent::pointer).collect();
    all.try_into().expect("each call is lent its own number")
}

/// The meter that the first numbers are. The pointer may reach those behind it too, since a stray
/// write is what they are there to show.
pub fn meter_of(numbers: &mut [u32]) -> *mut Meter {
    assert!(numbers.len() > ACCOUNTS);
    numbers.as_mut_ptr().cast()
}

// SAFETY, of all calls below: the slices and the meter are live for the call and do not overlap.

/// Carries an old total over into a meter.
pub fn carry(carry: &Carry) -> Held {
    let mut held = carry.lent();
    unsafe { lupiknam_meter_carry(carry.total, meter_of(&mut held)) };
    held
}

fn garble(step: &Step, loan: &mut Loan) -> Answer {
    let (file, size) = loan.file.pointer();
    let [
        (contributions, c),
        (rows, r),
        (input_masks, i),
        (output_masks, o),
    ] = pointers(&mut loan.buffers);
    let meter = meter_of(&mut loan.numbers);
    unsafe {
        lupiknam_garble(
            file,
            size,
            step.n,
            step.k,
            step.round,
            step.account,
            contributions,
            c,
            rows,
            r,
            input_masks,
            i,
            output_masks,
            o,
            meter,
        )
    }
}

fn externals(step: &Step, loan: &mut Loan) -> Answer {
    let (file, size) = loan.file.pointer();
    let [(values, v), (masks, m), (externals, e)] = pointers(&mut loan.buffers);
    let Step { n, party, .. } = *step;
    unsafe { lupiknam_externals(file, size, n, party, values, v, masks, m, externals, e) }
}

fn input_keys(step: &Step, loan: &mut Loan) -> Answer {
    let (file, size) = loan.file.pointer();
    let [(own, c), (externals, e), (keys, k)] = pointers(&mut loan.buffers);
    let Step { n, party, .. } = *step;
    unsafe { lupiknam_input_keys(file, size, n, step.k, party, own, c, externals, e, keys, k) }
}

fn open(step: &Step, loan: &mut Loan) -> Answer {
    let (file, size) = loan.file.pointer();
    let [own, externals, keys, rows, wire_keys, wire_externals] = pointers(&mut loan.buffers);
    unsafe {
        lupiknam_open(
            file,
            size,
            step.n,
            step.k,
            step.party,
            step.round,
            own.0,
            own.1,
            externals.0,
            externals.1,
            keys.0,
            keys.1,
            rows.0,
            rows.1,
            wire_keys.0,
            wire_keys.1,
            wire_externals.0,
            wire_externals.1,
        )
    }
}

fn decode(step: &Step, loan: &mut Loan) -> Answer {
    let (file, size) = loan.file.pointer();
    let [(externals, e), (masks, m), (outputs, o)] = pointers(&mut loan.buffers);
    let Step { n, party, .. } = *step;
    unsafe { lupiknam_decode(file, size, n, party, externals, e, masks, m, outputs, o) }
}

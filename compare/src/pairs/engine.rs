//! The calls for two as the engine answers them, across its C face.

use super::step::{Name, Step};
use crate::call::{After, Answer, Loan};
use crate::round::engine::{Meter, meter_of, pointers};

#[link(name = "engine", kind = "static")]
unsafe extern "C" {
    fn lupiknam_pair_read(file: *const u8, file_length: usize, rows: *mut u32) -> Answer;

    fn lupiknam_pair_garble(
        file: *const u8,
        file_length: usize,
        k: u32,
        round: u32,
        account: u32,
        draw: *const u8,
        draw_length: usize,
        rows: *mut u8,
        rows_length: usize,
        output_masks: *mut u8,
        output_masks_length: usize,
        meter: *mut Meter,
    ) -> Answer;

    fn lupiknam_pair_input_keys(
        file: *const u8,
        file_length: usize,
        k: u32,
        draw: *const u8,
        draw_length: usize,
        values: *const u8,
        values_length: usize,
        keys: *mut u8,
        keys_length: usize,
    ) -> Answer;

    fn lupiknam_pair_open(
        file: *const u8,
        file_length: usize,
        k: u32,
        round: u32,
        keys: *const u8,
        keys_length: usize,
        rows: *const u8,
        rows_length: usize,
        wire_keys: *mut u8,
        wire_keys_length: usize,
        wire_externals: *mut u8,
        wire_externals_length: usize,
    ) -> Answer;

    fn lupiknam_pair_decode(
        file: *const u8,
        file_length: usize,
        externals: *const u8,
        externals_length: usize,
        masks: *const u8,
        masks_length: usize,
        outputs: *mut u8,
        outputs_length: usize,
    ) -> Answer;
}

/// Makes a call of the engine.
pub fn run(step: &Step) -> After {
    let mut loan = step.loan();
    let answer = match step.name {
        Name::Read => read(&mut loan),
        Name::Garble => garble(step, &mut loan),
        Name::InputKeys => input_keys(step, &mut loan),
        Name::Open => open(step, &mut loan),
        Name::Decode => decode(&mut loan),
    };
    After { answer, loan }
}

// SAFETY, of all calls below: the slices, the number and the meter are live for the call and do not
// overlap.

fn read(loan: &mut Loan) -> Answer {
    let (file, size) = loan.file.pointer();
    unsafe { lupiknam_pair_read(file, size, loan.numbers.as_mut_ptr()) }
}

fn garble(step: &Step, loan: &mut Loan) -> Answer {
    let (file, size) = loan.file.pointer();
    let [(draw, d), (rows, r), (output_masks, o)] = pointers(&mut loan.buffers);
    let meter = meter_of(&mut loan.numbers);
    let Step {
        k, round, account, ..
    } = *step;
    unsafe {
        lupiknam_pair_garble(
            file,
            size,
            k,
            round,
            account,
            draw,
            d,
            rows,
            r,
            output_masks,
            o,
            meter,
        )
    }
}

fn input_keys(step: &Step, loan: &mut Loan) -> Answer {
    let (file, size) = loan.file.pointer();
    let [(draw, d), (values, v), (keys, k)] = pointers(&mut loan.buffers);
    unsafe { lupiknam_pair_input_keys(file, size, step.k, draw, d, values, v, keys, k) }
}

fn open(step: &Step, loan: &mut Loan) -> Answer {
    let (file, size) = loan.file.pointer();
    let [keys, rows, wire_keys, wire_externals] = pointers(&mut loan.buffers);
    unsafe {
        lupiknam_pair_open(
            file,
            size,
            step.k,
            step.round,
            keys.0,
            keys.1,
            rows.0,
            rows.1,
            wire_keys.0,
            wire_keys.1,
            wire_externals.0,
            wire_externals.1,
        )
    }
}

fn decode(loan: &mut Loan) -> Answer {
    let (file, size) = loan.file.pointer();
    let [(externals, e), (masks, m), (outputs, o)] = pointers(&mut loan.buffers);
    unsafe { lupiknam_pair_decode(file, size, externals, e, masks, m, outputs, o) }
}

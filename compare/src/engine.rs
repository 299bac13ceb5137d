//! The calls as the engine answers them, across its C face.

use crate::call::{After, Answer, Call, Loan};

#[link(name = "engine", kind = "static")]
unsafe extern "C" {
    fn lupiknam_read(
        file: *const u8,
        file_length: usize,
        wires: *mut u32,
        inputs: *mut u32,
        outputs: *mut u32,
        rows: *mut u32,
        moduli: *mut u32,
        records: *mut u32,
    ) -> Answer;

    fn lupiknam_inputs_of(
        file: *const u8,
        file_length: usize,
        n: u32,
        party: u32,
        count: *mut u32,
    ) -> Answer;

    fn lupiknam_plain(
        file: *const u8,
        file_length: usize,
        values: *const u8,
        values_length: usize,
        outputs: *mut u8,
        outputs_length: usize,
    ) -> Answer;
}

/// Makes a call of the engine.
pub fn run(file: &[u8], call: &Call) -> After {
    let mut loan = Loan::new(file, call);
    let answer = match call {
        Call::Read => run_read(&mut loan),
        Call::InputsOf { n, party } => run_inputs_of(&mut loan, *n, *party),
        Call::Plain { .. } => run_plain(&mut loan),
    };
    After { answer, loan }
}

fn run_read(loan: &mut Loan) -> Answer {
    let (file, length) = loan.file.pointer();
    let Ok([wires, inputs, outputs, rows, moduli, records]) =
        loan.numbers.get_disjoint_mut([0, 1, 2, 3, 4, 5])
    else {
        unreachable!("reading is lent six numbers");
    };
    // SAFETY: the slice and the six numbers are live for the call and do not overlap.
    unsafe { lupiknam_read(file, length, wires, inputs, outputs, rows, moduli, records) }
}

fn run_inputs_of(loan: &mut Loan, n: u32, party: u32) -> Answer {
    let (file, length) = loan.file.pointer();
    // SAFETY: the slice and the number are live for the call and do not overlap.
    unsafe { lupiknam_inputs_of(file, length, n, party, &mut loan.numbers[0]) }
}

fn run_plain(loan: &mut Loan) -> Answer {
    let (file, length) = loan.file.pointer();
    let [values, outputs] = &mut loan.buffers[..] else {
        unreachable!("plain evaluation is lent two buffers");
    };
    let (values, values_length) = values.pointer();
    let (outputs, outputs_length) = outputs.pointer();
    // SAFETY: the three slices are live for the call and do not overlap.
    unsafe { lupiknam_plain(file, length, values, values_length, outputs, outputs_length) }
}

/// Reads a circuit, for timing alone: no guards and no copies.
pub fn read(file: &[u8]) -> (Answer, [u32; 6]) {
    let mut numbers = [0; 6];
    let [wires, inputs, outputs, rows, moduli, records] = &mut numbers;
    // SAFETY: the engine only reads the file, and the six numbers do not overlap.
    let answer = unsafe {
        lupiknam_read(
            file.as_ptr(),
            file.len(),
            wires,
            inputs,
            outputs,
            rows,
            moduli,
            records,
        )
    };
    (answer, numbers)
}

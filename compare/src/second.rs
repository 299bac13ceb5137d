//! The calls as this program answers them.

use crate::call::{ACCEPTED, After, Answer, Call, Loan};
use compare::circuit::{Counts, Refusal, read};
use compare::plain::plain;
use compare::session::inputs_of;

/// Makes a call of this program.
pub fn run(file: &[u8], call: &Call) -> After {
    let mut loan = Loan::new(file, call);
    let result = match call {
        Call::Read => run_read(&mut loan),
        Call::InputsOf { n, party } => run_inputs_of(&mut loan, *n, *party),
        Call::Plain { .. } => run_plain(&mut loan),
    };
    let answer = match result {
        Ok(()) => ACCEPTED,
        Err(Refusal { number, place }) => Answer { number, place },
    };
    After { answer, loan }
}

fn run_read(loan: &mut Loan) -> Result<(), Refusal> {
    let counts = read(loan.file.content())?.counts();
    loan.numbers[..6].copy_from_slice(&in_order(counts));
    Ok(())
}

/// The numbers in the order of the call's parameters.
pub fn in_order(counts: Counts) -> [u32; 6] {
    let Counts {
        wires,
        inputs,
        outputs,
        rows,
        moduli,
        records,
    } = counts;
    [wires, inputs, outputs, rows, moduli, records]
}

fn run_inputs_of(loan: &mut Loan, n: u32, party: u32) -> Result<(), Refusal> {
    loan.numbers[0] = inputs_of(loan.file.content(), n, party)?;
    Ok(())
}

fn run_plain(loan: &mut Loan) -> Result<(), Refusal> {
    let [values, outputs] = &mut loan.buffers[..] else {
        unreachable!("plain evaluation is lent two buffers");
    };
    plain(loan.file.content(), values.content(), outputs.content_mut())
}

//! Writing and taking back as this program answers.

use super::call::{After, Call, Loan, Name};
use crate::call::{ACCEPTED, Answer};
use compare::circuit::Refusal;
use compare::{record, writer};

/// Makes a call of this program.
pub fn run(call: &Call) -> After {
    let mut loan = call.loan();
    let result = match call.name {
        Name::Write => write(&mut loan),
        Name::Records => records(&mut loan),
    };
    let answer = match result {
        Ok(()) => ACCEPTED,
        Err(Refusal { number, place }) => Answer { number, place },
    };
    After { answer, loan }
}

fn write(loan: &mut Loan) -> Result<(), Refusal> {
    let (records, tables) = (loan.records.content(), loan.tables.content());
    let (file, words) = (loan.file.content_mut(), &mut loan.words[0]);
    writer::write(records, tables, file, words)
}

fn records(loan: &mut Loan) -> Result<(), Refusal> {
    let (records, tables) = (loan.records.content_mut(), loan.tables.content_mut());
    record::records(loan.file.content(), records, tables)
}

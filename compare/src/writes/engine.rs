//! Writing and taking back as the engine answers, across its C face.

use super::call::{After, Call, Loan, Name};
use crate::call::Answer;
use compare::record::Record;

#[link(name = "engine", kind = "static")]
unsafe extern "C" {
    fn lupiknam_write(
        records: *const Record,
        record_count: usize,
        tables: *const u8,
        tables_length: usize,
        file: *mut u8,
        file_length: usize,
        words: *mut u32,
    ) -> Answer;

    fn lupiknam_records(
        file: *const u8,
        file_length: usize,
        records: *mut Record,
        record_count: usize,
        tables: *mut u8,
        tables_length: usize,
    ) -> Answer;
}

/// Makes a call of the engine.
pub fn run(call: &Call) -> After {
    let mut loan = call.loan();
    let answer = match call.name {
        Name::Write => write(&mut loan),
        Name::Records => records(&mut loan),
    };
    After { answer, loan }
}

fn write(loan: &mut Loan) -> Answer {
    let (records, count) = loan.records.pointer();
    let (tables, entries) = loan.tables.pointer();
    let (file, size) = loan.file.pointer();
    let words = &mut loan.words[0];
    // SAFETY: the three slices and the number are live for the call and do not overlap.
    unsafe { lupiknam_write(records, count, tables, entries, file, size, words) }
}

fn records(loan: &mut Loan) -> Answer {
    let (file, size) = loan.file.pointer();
    let (records, count) = loan.records.pointer();
    let (tables, entries) = loan.tables.pointer();
    // SAFETY: the three slices are live for the call and do not overlap.
    unsafe { lupiknam_records(file, size, records, count, tables, entries) }
}

//! What must hold between calls, beside that both programs answer each alike.

use super::case::Case;
use crate::call::{ACCEPTED, Call};
use crate::{engine, second};

pub const FIRST_FAULT: &str = "the first of the faults put in is named";
pub const SPLIT_JOINS: &str = "what is split joins to the same";
pub const JOINED_SPLITS: &str = "what is joined splits to the same";
pub const PART_WRITTEN: &str = "a part with no fault is written";
pub const PART_ROWS: &str = "a part has the rows of its gates, a square none of modulus 2";
pub const FILE_ACCEPTED: &str = "a circuit with parts is accepted";
pub const PLAIN_DECODED: &str = "every party decodes the plain outputs that it may read";
pub const RESULT_JOINED: &str = "what is decoded joins to the integer result";
pub const RESULT_KEPT: &str = "a figure for others is 255 throughout";

/// All of them; a thorough run looks at each with every number of primes.
pub const LAWS: [&str; 9] = [
    FIRST_FAULT,
    SPLIT_JOINS,
    JOINED_SPLITS,
    PART_WRITTEN,
    PART_ROWS,
    FILE_ACCEPTED,
    PLAIN_DECODED,
    RESULT_JOINED,
    RESULT_KEPT,
];

impl Case<'_> {
    /// Counts whether a law holds, and gives it.
    pub fn law(&mut self, law: &'static str, holds: bool) -> bool {
        if self.print && !holds {
            println!("does not hold: {law}");
        }
        self.tally.law((self.number, self.r()), law, holds);
        holds
    }

    /// An integer, split and joined, is the same again.
    pub fn split_and_joined(&mut self, r: u32, integer: u64) {
        let residues = self.split(r, integer);
        let joined = residues.and_then(|residues| self.join(r, &residues));
        self.law(SPLIT_JOINS, joined == Some(integer));
    }

    /// Residues, joined and split, are the same again.
    pub fn joined_and_split(&mut self, r: u32, residues: &[u8]) {
        let joined = self.join(r, residues);
        let split = joined.and_then(|integer| self.split(r, integer));
        let holds = split.is_some_and(|split| split == residues);
        self.law(JOINED_SPLITS, holds);
    }

    /// How many rows the engine says that a circuit has.
    pub fn rows(&self, file: &[u8]) -> Option<u32> {
        let after = engine::run(file, &Call::Read);
        (after.answer == ACCEPTED).then_some(after.loan.numbers[3])
    }

    /// Whether both programs accept a file that has parts among its gates.
    pub fn accepted(&mut self, file: &[u8]) -> bool {
        let ours = second::run(file, &Call::Read);
        let engines = engine::run(file, &Call::Read);
        let holds = ours.answer == ACCEPTED && ours == engines;
        self.law(FILE_ACCEPTED, holds)
    }
}

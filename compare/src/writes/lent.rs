//! A slice of records as C is lent it.

use crate::call::BLANK_NUMBER;
use compare::record::Record;
use std::ptr;

/// Lent records between two that nobody was lent.
#[derive(Clone, Debug, PartialEq, Eq)]
pub struct LentRecords {
    /// The lent ones, after one guard and before the other.
    all: Vec<Record>,
    /// Whether C is lent a null pointer, as it may be where there are none.
    null: bool,
}

/// What no call has written.
const BLANK: Record = Record {
    kind: BLANK_NUMBER,
    modulus: BLANK_NUMBER,
    owner: BLANK_NUMBER,
    constant: BLANK_NUMBER,
    bit: BLANK_NUMBER,
    a: BLANK_NUMBER,
    b: BLANK_NUMBER,
    named: BLANK_NUMBER as u8,
};

impl LentRecords {
    /// Records to be read. An output stands right after them, so that a writer that runs past a
    /// list that has none finds what it was missing.
    pub fn to_read(content: &[Record]) -> Self {
        LentRecords::guarded(content, Record::output(0))
    }

    pub fn to_write(content: &[Record]) -> Self {
        LentRecords::guarded(content, BLANK)
    }

    fn guarded(content: &[Record], after: Record) -> Self {
        let mut all = Vec::with_capacity(content.len() + 2);
        all.push(BLANK);
        all.extend(content);
        all.push(after);
        LentRecords { all, null: false }
    }

    /// The same records, lent as a null pointer if that is asked for and there are none.
    pub fn null_if_empty(mut self, asked: bool) -> Self {
        self.null = asked && self.content().is_empty();
        self
    }

    pub fn content(&self) -> &[Record] {
        &self.all[1..self.all.len() - 1]
    }

    pub fn content_mut(&mut self) -> &mut [Record] {
        let end = self.all.len() - 1;
        &mut self.all[1..end]
    }

    /// The records as C is lent them, and how many. The pointer may reach the guards too.
    pub fn pointer(&mut self) -> (*mut Record, usize) {
        if self.null {
            return (ptr::null_mut(), 0);
        }
        let count = self.content().len();
        (self.all.as_mut_ptr().wrapping_add(1), count)
    }
}

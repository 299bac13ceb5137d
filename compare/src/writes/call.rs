//! A call that writes a file or takes one back, and what is lent to it.

use super::lent::LentRecords;
use crate::call::{Answer, BLANK_NUMBER, Lent};
use compare::record::Record;
use std::fmt;

#[derive(Clone, Copy, Debug, PartialEq, Eq, PartialOrd, Ord)]
pub enum Name {
    Write,
    Records,
}

impl Name {
    pub fn text(self) -> &'static str {
        match self {
            Name::Write => "write",
            Name::Records => "records",
        }
    }
}

/// A call with what stands in its buffers before; both calls have the same three, and one reads
/// what the other writes.
#[derive(Clone, Debug)]
pub struct Call {
    pub name: Name,
    pub records: Vec<Record>,
    pub tables: Vec<u8>,
    pub file: Vec<u8>,
    /// The number of words before writing.
    pub words: u32,
    /// Whether an empty buffer is lent as a null pointer.
    pub nulls: bool,
}

/// Everything lent to a call.
#[derive(Clone, Debug, PartialEq, Eq)]
pub struct Loan {
    pub records: LentRecords,
    pub tables: Lent,
    pub file: Lent,
    /// The number of words, and one more that is not lent.
    pub words: [u32; 2],
}

/// A call's answer, and all that was lent to it as it is afterwards.
#[derive(Clone, Debug, PartialEq, Eq)]
pub struct After {
    pub answer: Answer,
    pub loan: Loan,
}

/// What both programs made of a call.
#[derive(Clone, Debug)]
pub struct Made {
    pub ours: After,
    pub engines: After,
}

impl Call {
    pub fn loan(&self) -> Loan {
        let (records, tables, file) = match self.name {
            Name::Write => (
                LentRecords::to_read(&self.records),
                Lent::before_zeros(&self.tables),
                Lent::of(&self.file),
            ),
            Name::Records => (
                LentRecords::to_write(&self.records),
                Lent::of(&self.tables),
                Lent::file(&self.file),
            ),
        };
        Loan {
            records: records.null_if_empty(self.nulls),
            tables: tables.null_if_empty(self.nulls),
            file: file.null_if_empty(self.nulls),
            words: [self.words, BLANK_NUMBER],
        }
    }
}

impl fmt::Display for Call {
    fn fmt(&self, to: &mut fmt::Formatter) -> fmt::Result {
        let name = self.name.text();
        let (records, tables) = (self.records.len(), self.tables.len());
        let file = self.file.len();
        write!(to, "{name} records={records} tables={tables} file={file}")?;
        if self.nulls {
            write!(to, " nulls")?;
        }
        Ok(())
    }
}

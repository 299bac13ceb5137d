//! A call of bundles, and what is lent to it.

use crate::call::{Answer, BLANK_NUMBER, Lent};
use std::fmt;

#[derive(Clone, Copy, Debug, PartialEq, Eq, PartialOrd, Ord)]
pub enum Name {
    Split,
    Join,
    Add,
    Multiply,
    Scale,
}

use Name::{Add, Join, Multiply, Scale, Split};

pub const NAMES: [Name; 5] = [Split, Join, Add, Multiply, Scale];

impl Name {
    pub fn text(self) -> &'static str {
        match self {
            Split => "split",
            Join => "join",
            Add => "add",
            Multiply => "multiply",
            Scale => "scale",
        }
    }

    /// The refusals that this call can give, in the order of its checks.
    pub fn refusals(self) -> &'static [u32] {
        match self {
            Split | Join => &[23, 14, 24],
            Add | Multiply => &[23, 5, 8, 22],
            Scale => &[23, 24, 5, 8, 22],
        }
    }
}

/// A call with all that it is given; numbers that it does not take are not looked at.
#[derive(Clone, Debug)]
pub struct Call {
    pub name: Name,
    pub r: u32,
    /// The integer to split, or the constant to scale by.
    pub integer: u64,
    pub first: u32,
    pub a: u32,
    pub b: u32,
    /// The residues, or what stands before in the buffer that is to be written.
    pub buffer: Vec<u8>,
    /// What stands before in the number that is to be written.
    pub before: u64,
    /// Whether an empty buffer is lent as a null pointer.
    pub nulls: bool,
}

/// Everything lent to a call.
#[derive(Clone, Debug, PartialEq, Eq)]
pub struct Loan {
    pub buffer: Lent,
    /// The number of words, and one more that is not lent.
    pub words: [u32; 2],
    /// The integer joined, and one more that is not lent.
    pub integer: [u64; 2],
}

/// A call's answer, and all that was lent to it as it is afterwards.
#[derive(Clone, Debug, PartialEq, Eq)]
pub struct After {
    pub answer: Answer,
    pub loan: Loan,
}

/// What both programs made of a call.
#[derive(Clone, Debug)]
pub struct Made {
    pub ours: After,
    pub engines: After,
}

impl Call {
    pub fn loan(&self) -> Loan {
        let buffer = match self.name {
            Join => Lent::before_zeros(&self.buffer),
            _ => Lent::of(&self.buffer),
        };
        Loan {
            buffer: buffer.null_if_empty(self.nulls),
            words: [self.before as u32, BLANK_NUMBER],
            integer: [self.before, BLANK_NUMBER.into()],
        }
    }
}

impl After {
    /// The words that a part was written with, where the buffer has as many as are said to be there.
    pub fn words(&self) -> Option<Vec<u32>> {
        let length = 4 * self.loan.words[0] as usize;
        let (words, _) = self.loan.buffer.content().get(..length)?.as_chunks();
        Some(words.iter().map(|word| u32::from_le_bytes(*word)).collect())
    }
}

impl fmt::Display for Call {
    fn fmt(&self, to: &mut fmt::Formatter) -> fmt::Result {
        let Call {
            name,
            r,
            integer,
            first,
            a,
            b,
            ..
        } = self;
        let length = self.buffer.len();
        write!(to, "{} r={r}", name.text())?;
        match name {
            Split => write!(to, " integer={integer} residues={length}")?,
            Join => write!(to, " residues={:?}", self.buffer)?,
            Add | Multiply => write!(to, " first={first} a={a} b={b} file={length}")?,
            Scale => write!(to, " first={first} constant={integer} a={a} file={length}")?,
        }
        if self.nulls {
            write!(to, " nulls")?;
        }
        Ok(())
    }
}

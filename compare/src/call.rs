//! A call and what is lent to it, the same for both programs.

use std::fmt;

/// One call of the C face, beside its file.
#[derive(Clone, Debug, PartialEq, Eq)]
pub enum Call {
    Read,
    InputsOf { n: u32, party: u32 },
    Plain { values: Vec<u8>, outputs: usize },
}

/// The answer of a call; number and place are 0 where it was accepted.
#[repr(C)]
#[derive(Clone, Copy, Debug, PartialEq, Eq)]
pub struct Answer {
    pub number: u32,
    pub place: usize,
}

pub const ACCEPTED: Answer = Answer {
    number: 0,
    place: 0,
};

impl fmt::Display for Answer {
    fn fmt(&self, to: &mut fmt::Formatter) -> fmt::Result {
        if *self == ACCEPTED {
            write!(to, "accepted")
        } else {
            write!(to, "refused {} at {}", self.number, self.place)
        }
    }
}

/// What stands in a number or byte that no call has written.
pub const BLANK_NUMBER: u32 = 0xA5C3_5A3C;
const BLANK_BYTE: u8 = 0xA5;

/// Bytes on either side of a lent buffer, which nobody was lent.
const GUARD: usize = 8;

/// What stands right after a file: the end word of a circuit, so that a reader that runs past a
/// file that was cut off finds what it was missing.
const AFTER_FILE: [u8; GUARD] = [
    0, 0, 0, 0xB0, BLANK_BYTE, BLANK_BYTE, BLANK_BYTE, BLANK_BYTE,
];

/// A lent buffer between its guards.
#[derive(Clone, Debug, PartialEq, Eq)]
pub struct Lent {
    bytes: Vec<u8>,
    start: usize,
    length: usize,
    /// Whether C is lent a null pointer, as it may be where the length is 0.
    null: bool,
}

impl Lent {
    pub fn file(content: &[u8]) -> Self {
        Lent::guarded(content, AFTER_FILE)
    }

    /// Tables or residues to be read. What stands right after them are entries that every table can
    /// have and residues of any prime, so that a call that runs past too few of them finds what it
    /// was missing.
    pub fn before_zeros(content: &[u8]) -> Self {
        Lent::guarded(content, [0; GUARD])
    }

    /// A buffer with this content.
    pub fn of(content: &[u8]) -> Self {
        Lent::guarded(content, [BLANK_BYTE; GUARD])
    }

    /// Nothing may depend on where a buffer starts, so that varies with its length.
    fn guarded(content: &[u8], after: [u8; GUARD]) -> Self {
        let start = GUARD + content.len() % 7;
        let mut bytes = Vec::with_capacity(start + content.len() + GUARD);
        bytes.resize(start, BLANK_BYTE);
        bytes.extend(content);
        bytes.extend(after);
        Lent {
            bytes,
            start,
            length: content.len(),
            null: false,
        }
    }

    /// The same buffer, lent as a null pointer if that is asked for and it is empty.
    pub fn null_if_empty(mut self, asked: bool) -> Self {
        self.null = asked && self.length == 0;
        self
    }

    /// A buffer to be written.
    fn blank(length: usize) -> Self {
        Lent::of(&vec![BLANK_BYTE; length])
    }

    pub fn content(&self) -> &[u8] {
        &self.bytes[self.start..][..self.length]
    }

    /// The content as C is lent it. The pointer may reach the guards too, since a stray write
    /// is what they are there to show.
    pub fn pointer(&mut self) -> (*mut u8, usize) {
        if self.null {
            return (std::ptr::null_mut(), 0);
        }
        let start = self.bytes.as_mut_ptr().wrapping_add(self.start);
        (start, self.length)
    }

    pub fn content_mut(&mut self) -> &mut [u8] {
        &mut self.bytes[self.start..][..self.length]
    }
}

/// Everything lent to a call.
#[derive(Clone, Debug, PartialEq, Eq)]
pub struct Loan {
    pub file: Lent,
    /// The other buffers, in the order of the call's parameters.
    pub buffers: Vec<Lent>,
    /// The numbers to be written, and one more that is not lent.
    pub numbers: Vec<u32>,
}

impl Loan {
    pub fn new(file: &[u8], call: &Call) -> Self {
        let (buffers, numbers) = match call {
            Call::Read => (Vec::new(), 6),
            Call::InputsOf { .. } => (Vec::new(), 1),
            Call::Plain { values, outputs } => (vec![Lent::of(values), Lent::blank(*outputs)], 0),
        };
        Loan::of(file, buffers, &vec![BLANK_NUMBER; numbers])
    }

    /// A loan of these buffers and numbers.
    pub fn of(file: &[u8], buffers: Vec<Lent>, numbers: &[u32]) -> Self {
        let mut numbers = numbers.to_vec();
        numbers.push(BLANK_NUMBER);
        Loan {
            file: Lent::file(file),
            buffers,
            numbers,
        }
    }
}

/// A call's answer, and all that was lent to it as it is afterwards.
#[derive(Clone, Debug, PartialEq, Eq)]
pub struct After {
    pub answer: Answer,
    pub loan: Loan,
}

impl fmt::Display for After {
    fn fmt(&self, to: &mut fmt::Formatter) -> fmt::Result {
        write!(to, "{}", self.answer)?;
        let (_, lent) = self.loan.numbers.split_last().expect("one is not lent");
        if lent.iter().any(|number| *number != BLANK_NUMBER) {
            write!(to, ", numbers {lent:?}")?;
        }
        for buffer in &self.loan.buffers {
            write!(to, ", buffer ")?;
            write_hex(to, buffer.content())?;
        }
        Ok(())
    }
}

impl fmt::Display for Call {
    fn fmt(&self, to: &mut fmt::Formatter) -> fmt::Result {
        match self {
            Call::Read => write!(to, "read"),
            Call::InputsOf { n, party } => write!(to, "inputs_of {n} {party}"),
            Call::Plain { values, outputs } => {
                write!(to, "plain ")?;
                write_hex(to, values)?;
                write!(to, " {outputs}")
            }
        }
    }
}

/// Bytes in hexadecimal, `-` for none.
fn write_hex(to: &mut fmt::Formatter, bytes: &[u8]) -> fmt::Result {
    if bytes.is_empty() {
        return write!(to, "-");
    }
    bytes.iter().try_for_each(|byte| write!(to, "{byte:02x}"))
}

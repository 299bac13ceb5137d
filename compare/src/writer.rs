//! The writer: records, and the tables of their projections, laid down as a circuit file.
//!
//! A record is judged as the reader judges the words that it stands for. So each word is laid
//! down together with its kind's checks, in the order of their numbers and each already answered;
//! the first that is met refuses. Fields are judged by their values, whatever bits there are for
//! them: a record that passes has none that is too wide.

use crate::circuit::{MOST_OUTPUTS, MOST_WIRES, Refusal};
use crate::record::{ADD, INPUT, MULTIPLY, OUTPUT, PROJECT, Record, SCALE, SELECT};
use crate::word::{self, END, HEAD};

/// Writes the file that these records make, and how many words it has.
pub fn write(
    records: &[Record],
    tables: &[u8],
    file: &mut [u8],
    words: &mut u32,
) -> Result<(), Refusal> {
    let laid = words_of(records, tables).map_err(|fault| fault.refusal)?;
    lay_down(&laid, file, words)
}

/// Writes these words, and how many there are. 22: the buffer is long enough for them.
pub fn lay_down(laid: &[u32], file: &mut [u8], words: &mut u32) -> Result<(), Refusal> {
    let bytes = word::file(laid);
    let too_short = Refusal {
        number: 22,
        place: 0,
    };
    file.get_mut(..bytes.len())
        .ok_or(too_short)?
        .copy_from_slice(&bytes);
    *words = laid.len() as u32;
    Ok(())
}

/// Why there is no file.
#[derive(Clone, Debug, PartialEq, Eq)]
pub struct Fault {
    pub refusal: Refusal,
    /// The words laid down. After 3 to 9 the last of them is the one at fault, which is as it
    /// should be only where the record's fields fit their bits.
    pub words: Vec<u32>,
}

/// The words of the file that these records make.
pub fn words_of(records: &[Record], tables: &[u8]) -> Result<Vec<u32>, Fault> {
    let mut draft = Draft {
        words: vec![HEAD],
        moduli: Vec::new(),
        outputs: 0,
        rank: 0,
        entries: tables,
    };
    match draft.list(records) {
        Ok(()) => Ok(draft.words),
        Err(refusal) => Err(Fault {
            refusal,
            words: draft.words,
        }),
    }
}

/// A refusal's number, and whether it is met.
type Check = (u32, bool);

struct Draft<'t> {
    words: Vec<u32>,
    /// The modulus of each wire made.
    moduli: Vec<u32>,
    outputs: usize,
    /// The rank of the last record.
    rank: u32,
    /// The entries that no projection has taken yet.
    entries: &'t [u8],
}

/// Inputs come before gates, and gates before outputs.
fn rank(kind: u32) -> u32 {
    match kind {
        INPUT => 0,
        OUTPUT => 2,
        _ => 1,
    }
}

/// Whether this is one of the 54 primes from 2 to 251.
fn is_prime(p: u32) -> bool {
    (2..=251).contains(&p) && (2..16).all(|factor| p == factor || !p.is_multiple_of(factor))
}

impl Draft<'_> {
    fn list(&mut self, records: &[Record]) -> Result<(), Refusal> {
        for (place, record) in records.iter().enumerate() {
            self.record(record)
                .map_err(|number| Refusal { number, place })?;
        }
        let place = records.len();
        self.end().map_err(|number| Refusal { number, place })
    }

    /// Lays down a record's words; gives the number of the first check that is met.
    fn record(&mut self, record: &Record) -> Result<(), u32> {
        if record.bare() != Some(*record) {
            return Err(2);
        }
        let rank = rank(record.kind);
        let late = (3, rank < self.rank);
        self.rank = rank;
        match record.kind {
            INPUT => self.input(late, record),
            ADD => self.two_wired(late, record, word::add),
            MULTIPLY => self.two_wired(late, record, word::multiply),
            SCALE => self.scale(late, record),
            PROJECT => self.project(late, record),
            SELECT => self.select(late, record),
            _ => self.output(late, record),
        }
    }

    /// Lays down a word with all its checks.
    fn lay(&mut self, word: u32, checks: &[Check]) -> Result<(), u32> {
        self.words.push(word);
        match checks.iter().find(|(_, met)| *met) {
            Some((number, _)) => Err(*number),
            None => Ok(()),
        }
    }

    fn input(&mut self, late: Check, record: &Record) -> Result<(), u32> {
        let Record { owner, modulus, .. } = *record;
        let checks = [late, (4, !is_prime(modulus)), (7, owner > 7), self.full()];
        self.lay(word::input(owner, modulus), &checks)?;
        self.moduli.push(modulus);
        Ok(())
    }

    fn two_wired(
        &mut self,
        late: Check,
        record: &Record,
        word: fn(u32, u32) -> u32,
    ) -> Result<(), u32> {
        let Record { a, b, .. } = *record;
        let checks = [late, self.unmade(&[a, b]), self.unlike(a, b), self.full()];
        self.lay(word(a, b), &checks)?;
        self.make_like(a);
        Ok(())
    }

    fn scale(&mut self, late: Check, record: &Record) -> Result<(), u32> {
        let Record { constant, a, .. } = *record;
        let in_range = constant > 0 && Some(constant) < self.modulus(a);
        let checks = [late, self.unmade(&[a]), (7, !in_range), self.full()];
        self.lay(word::scale(constant, a), &checks)?;
        self.make_like(a);
        Ok(())
    }

    fn project(&mut self, late: Check, record: &Record) -> Result<(), u32> {
        let Record { modulus, a, .. } = *record;
        let composite = (4, !is_prime(modulus));
        let checks = [late, composite, self.unmade(&[a]), self.full()];
        self.lay(word::project(modulus, a), &checks)?;
        self.table(self.moduli[a as usize], modulus)?;
        self.moduli.push(modulus);
        Ok(())
    }

    /// Takes a table of so many entries; those that are there are judged before one is missed.
    fn table(&mut self, length: u32, modulus: u32) -> Result<(), u32> {
        for _ in 0..length {
            let (image, left) = self.entries.split_first().ok_or(14_u32)?;
            self.entries = left;
            let image = u32::from(*image);
            self.lay(word::entry(image), &[(7, image >= modulus)])?;
        }
        Ok(())
    }

    /// A select is two words, and all checks of the first come before those of the second.
    fn select(&mut self, late: Check, record: &Record) -> Result<(), u32> {
        let Record { bit, a, b, .. } = *record;
        let no_bit = (6, self.modulus(bit) != Some(2));
        let checks = [late, self.unmade(&[bit]), no_bit, self.full()];
        self.lay(word::select(bit), &checks)?;
        let checks = [self.unmade(&[a, b]), self.unlike(a, b)];
        self.lay(word::branches(a, b), &checks)?;
        self.make_like(a);
        Ok(())
    }

    fn output(&mut self, late: Check, record: &Record) -> Result<(), u32> {
        let full = (8, self.outputs == MOST_OUTPUTS);
        let Record { a, named, .. } = *record;
        let checks = [late, self.unmade(&[a]), full];
        self.lay(word::named_output(named.into(), a), &checks)?;
        self.outputs += 1;
        Ok(())
    }

    fn end(&mut self) -> Result<(), u32> {
        let left_over = !self.entries.is_empty();
        self.lay(END, &[(9, self.outputs == 0), (14, left_over)])
    }

    /// The modulus of a wire, if it is made.
    fn modulus(&self, wire: u32) -> Option<u32> {
        self.moduli.get(wire as usize).copied()
    }

    /// 5: one of these wires is not made.
    fn unmade(&self, wires: &[u32]) -> Check {
        (5, wires.iter().any(|wire| self.modulus(*wire).is_none()))
    }

    /// 6: the two wires' moduli differ.
    fn unlike(&self, a: u32, b: u32) -> Check {
        (6, self.modulus(a) != self.modulus(b))
    }

    /// 8: there is no room for another wire.
    fn full(&self) -> Check {
        (8, self.moduli.len() == MOST_WIRES)
    }

    /// Makes a wire of the same modulus as one that is made.
    fn make_like(&mut self, wire: u32) {
        self.moduli.push(self.moduli[wire as usize]);
    }
}

//! The circuit file: any byte string is an accepted circuit or a refusal.

use crate::word::{Bytes, HEAD, Kind};

pub const MOST_WIRES: usize = 1024;
pub const MOST_OUTPUTS: usize = 256;

/// Why a call was refused, and where.
#[derive(Clone, Copy, Debug, PartialEq, Eq)]
pub struct Refusal {
    pub number: u32,
    pub place: usize,
}

/// How a wire comes by its value. A select gives `a` when the bit is 0, `b` when it is 1.
#[derive(Clone, Copy, Debug)]
pub enum Gate<'f> {
    Input { owner: u8 },
    Add { a: u16, b: u16 },
    Scale { constant: u8, a: u16 },
    Multiply { a: u16, b: u16 },
    Project { a: u16, table: Table<'f> },
    Select { bit: u16, a: u16, b: u16 },
}

/// A projection's images.
#[derive(Clone, Copy, Debug)]
pub enum Table<'f> {
    /// Left where they lie in the file.
    InFile(&'f [Bytes]),
    /// The squares modulo this prime, which no file lists.
    Squares(u8),
}

impl Table<'_> {
    pub fn image(&self, value: u8) -> u8 {
        match self {
            Table::InFile(entries) => entries[usize::from(value)][0],
            Table::Squares(p) => (u16::from(value).pow(2) % u16::from(*p)) as u8,
        }
    }

    /// How many images there are: the modulus of the projected wire.
    fn length(&self) -> u32 {
        match self {
            Table::InFile(entries) => entries.len() as u32,
            Table::Squares(p) => u32::from(*p),
        }
    }
}

#[derive(Clone, Copy, Debug)]
pub struct Wire<'f> {
    pub gate: Gate<'f>,
    pub modulus: u8,
}

impl<'f> Wire<'f> {
    /// Whether this wire is the product of a wire with itself: the same wire number, not just the
    /// same value.
    pub fn is_square(&self) -> bool {
        matches!(self.gate, Gate::Multiply { a, b } if a == b)
    }

    /// Whether this wire is a bit times itself, and so a copy of that bit.
    pub fn is_copy(&self) -> bool {
        self.is_square() && self.modulus == 2
    }

    /// The gate that this wire is garbled and opened as: its own, but for a square, which is
    /// garbled as a projection or, of a bit, not at all: keys, mask and external value are those of
    /// the bit, as those of its multiple by 1 are. All that has to do with rows or records asks for
    /// this gate; the plain value, the kind and the file's words are those of the wire's own.
    pub fn garbled(&self) -> Gate<'f> {
        match self.gate {
            Gate::Multiply { a, .. } if self.is_copy() => Gate::Scale { constant: 1, a },
            Gate::Multiply { a, .. } if self.is_square() => Gate::Project {
                a,
                table: Table::Squares(self.modulus),
            },
            own => own,
        }
    }

    /// The number of the word kind that starts this wire.
    pub fn kind(&self) -> u32 {
        match self.gate {
            Gate::Input { .. } => 2,
            Gate::Add { .. } => 3,
            Gate::Scale { .. } => 4,
            Gate::Multiply { .. } => 5,
            Gate::Project { .. } => 6,
            Gate::Select { .. } => 8,
        }
    }

    /// The rows that garbling writes for this wire.
    pub fn rows(&self) -> u32 {
        let p = u32::from(self.modulus);
        match self.garbled() {
            Gate::Input { .. } | Gate::Add { .. } | Gate::Scale { .. } => 0,
            Gate::Multiply { .. } => 2 * p,
            // One row for each value of the projected wire.
            Gate::Project { table, .. } => table.length(),
            Gate::Select { .. } => 2 * p + 2,
        }
    }

    /// How many pairs of a key and a mask share a party's record for this wire has.
    pub fn records(&self) -> u32 {
        match self.garbled() {
            Gate::Input { .. } | Gate::Project { .. } => 1,
            Gate::Multiply { .. } => 2,
            Gate::Select { .. } => 3,
            Gate::Add { .. } | Gate::Scale { .. } => 0,
        }
    }
}

/// A wire whose value may be read, and by whom.
#[derive(Clone, Copy, Debug, PartialEq, Eq, PartialOrd, Ord)]
pub struct Output {
    pub wire: u16,
    /// Bit s names seat s; where none is set, every party that takes part may read.
    pub named: u8,
}

impl Output {
    /// Whether a party may read this output; it is one of those that take part.
    pub fn is_for(&self, party: u32) -> bool {
        self.named == 0 || self.named >> party & 1 == 1
    }

    /// Whether a seat is named that n parties leave empty.
    pub fn names_beyond(&self, n: u32) -> bool {
        u32::from(self.named) >> n != 0
    }
}

/// An accepted circuit. Its inputs are its lowest wires.
#[derive(Clone, Debug)]
pub struct Circuit<'f> {
    pub wires: Vec<Wire<'f>>,
    pub outputs: Vec<Output>,
    pub inputs: usize,
}

/// The numbers a circuit is known by.
#[derive(Clone, Copy, Debug, Default, PartialEq, Eq)]
pub struct Counts {
    pub wires: u32,
    pub inputs: u32,
    pub outputs: u32,
    pub rows: u32,
    pub moduli: u32,
    pub records: u32,
}

impl Circuit<'_> {
    /// The moduli of the inputs, in wire order.
    pub fn input_moduli(&self) -> impl ExactSizeIterator<Item = u8> {
        self.wires[..self.inputs].iter().map(|wire| wire.modulus)
    }

    /// The owners of the inputs, in wire order.
    pub fn owners(&self) -> impl Iterator<Item = u8> {
        self.wires.iter().map_while(|wire| match wire.gate {
            Gate::Input { owner } => Some(owner),
            _ => None,
        })
    }

    pub fn inputs_of(&self, party: u32) -> u32 {
        self.owners()
            .filter(|owner| u32::from(*owner) == party)
            .count() as u32
    }

    pub fn modulus(&self, wire: u16) -> u8 {
        self.wires[usize::from(wire)].modulus
    }

    /// The moduli of the outputs, in the order of the file.
    pub fn output_moduli(&self) -> impl ExactSizeIterator<Item = u8> {
        self.outputs.iter().map(|output| self.modulus(output.wire))
    }

    /// The moduli that some wire has, ascending.
    pub fn moduli(&self) -> Vec<u8> {
        let mut used = [false; 256];
        for wire in &self.wires {
            used[usize::from(wire.modulus)] = true;
        }
        (0..=255).filter(|p| used[usize::from(*p)]).collect()
    }

    pub fn counts(&self) -> Counts {
        let rows = self.wires.iter().map(Wire::rows).sum();
        let records = self.wires.iter().map(Wire::records).sum();
        Counts {
            wires: self.wires.len() as u32,
            inputs: self.inputs as u32,
            outputs: self.outputs.len() as u32,
            rows,
            moduli: self.moduli().len() as u32,
            records,
        }
    }
}

/// Whether this byte is one of the 54 primes from 2 to 251.
pub const fn is_modulus(p: u8) -> bool {
    MODULI[p as usize]
}

const MODULI: [bool; 256] = {
    let mut primes = [true; 256];
    primes[0] = false;
    primes[1] = false;
    let mut factor = 2;
    while factor < 16 {
        let mut multiple = factor * factor;
        while multiple < 256 {
            primes[multiple] = false;
            multiple += factor;
        }
        factor += 1;
    }
    primes
};

/// Reads a circuit file.
pub fn read(file: &[u8]) -> Result<Circuit<'_>, Refusal> {
    let (words, left_over) = file.as_chunks();
    if words.first() != Some(&HEAD.to_le_bytes()) {
        return Err(Refusal {
            number: 1,
            place: 0,
        });
    }
    let mut reader = Reader::after_head(words);
    while reader.item()? {}
    reader.nothing_follows(left_over)?;
    Ok(Circuit {
        wires: reader.wires,
        outputs: reader.outputs,
        inputs: reader.inputs,
    })
}

/// The three middle runs of a file: a run may be skipped, but never taken up again.
#[derive(Clone, Copy, PartialEq, Eq)]
enum Run {
    Inputs,
    Gates,
    Outputs,
}

struct Reader<'f> {
    words: &'f [Bytes],
    /// The index of the word being judged.
    at: usize,
    run: Run,
    wires: Vec<Wire<'f>>,
    outputs: Vec<Output>,
    inputs: usize,
}

/// The wire fields at bits 19 to 10 and 9 to 0.
fn two_wires(word: u32) -> (u16, u16) {
    ((word >> 10 & 0x3FF) as u16, (word & 0x3FF) as u16)
}

/// The byte field at bits 17 to 10 and the wire field at bits 9 to 0.
fn byte_and_wire(word: u32) -> (u8, u16) {
    ((word >> 10) as u8, (word & 0x3FF) as u16)
}

impl<'f> Reader<'f> {
    fn after_head(words: &'f [Bytes]) -> Self {
        Reader {
            words,
            at: 0,
            run: Run::Inputs,
            wires: Vec::with_capacity(words.len().min(MOST_WIRES)),
            outputs: Vec::new(),
            inputs: 0,
        }
    }

    fn refuse(&self, number: u32) -> Refusal {
        Refusal {
            number,
            place: self.at,
        }
    }

    /// Refuses the current word by this number unless the check holds.
    fn check(&self, holds: bool, number: u32) -> Result<(), Refusal> {
        if holds {
            Ok(())
        } else {
            Err(self.refuse(number))
        }
    }

    /// Steps to the next word, which must be well formed.
    fn next(&mut self) -> Result<(Kind, u32), Refusal> {
        self.at += 1;
        let bytes = self.words.get(self.at).ok_or(self.refuse(10))?;
        let word = u32::from_le_bytes(*bytes);
        let kind = Kind::of(word).ok_or(self.refuse(2))?;
        Ok((kind, word))
    }

    /// Reads an input, a gate with the words that belong to it, an output, or the end; says
    /// whether more is due.
    fn item(&mut self) -> Result<bool, Refusal> {
        let (kind, word) = self.next()?;
        match (kind, self.run) {
            (Kind::Input, Run::Inputs) => self.input(word)?,
            (
                Kind::Add | Kind::Scale | Kind::Multiply | Kind::Project | Kind::Select,
                Run::Inputs | Run::Gates,
            ) => {
                self.run = Run::Gates;
                self.gate(kind, word)?;
            }
            (Kind::Output, _) => {
                self.run = Run::Outputs;
                self.output(word)?;
            }
            (Kind::End, _) => {
                self.check(!self.outputs.is_empty(), 9)?;
                return Ok(false);
            }
            _ => return Err(self.refuse(3)),
        }
        Ok(true)
    }

    fn input(&mut self, word: u32) -> Result<(), Refusal> {
        let owner = (word >> 16) as u8;
        let modulus = word as u8;
        self.check(is_modulus(modulus), 4)?;
        self.check(owner < 8, 7)?;
        self.room_for_wire()?;
        self.inputs += 1;
        self.wires.push(Wire {
            gate: Gate::Input { owner },
            modulus,
        });
        Ok(())
    }

    fn gate(&mut self, kind: Kind, word: u32) -> Result<(), Refusal> {
        let wire = match kind {
            Kind::Scale => self.scale(word)?,
            Kind::Project => self.project(word)?,
            Kind::Select => self.select(word)?,
            _ => self.add_or_multiply(kind, word)?,
        };
        self.wires.push(wire);
        Ok(())
    }

    fn add_or_multiply(&self, kind: Kind, word: u32) -> Result<Wire<'f>, Refusal> {
        let (a, b) = two_wires(word);
        let modulus = self.common_modulus(a, b)?;
        self.room_for_wire()?;
        let gate = match kind {
            Kind::Add => Gate::Add { a, b },
            _ => Gate::Multiply { a, b },
        };
        Ok(Wire { gate, modulus })
    }

    fn scale(&self, word: u32) -> Result<Wire<'f>, Refusal> {
        let (constant, a) = byte_and_wire(word);
        let modulus = self.modulus_of(a)?;
        self.check(0 < constant && constant < modulus, 7)?;
        self.room_for_wire()?;
        let gate = Gate::Scale { constant, a };
        Ok(Wire { gate, modulus })
    }

    fn project(&mut self, word: u32) -> Result<Wire<'f>, Refusal> {
        let (modulus, a) = byte_and_wire(word);
        self.check(is_modulus(modulus), 4)?;
        let length = self.modulus_of(a)?;
        self.room_for_wire()?;
        let table = self.table(usize::from(length), modulus)?;
        let gate = Gate::Project { a, table };
        Ok(Wire { gate, modulus })
    }

    /// Reads the entries after a project word, each image below the modulus.
    fn table(&mut self, length: usize, modulus: u8) -> Result<Table<'f>, Refusal> {
        let start = self.at + 1;
        let entries = &self.words[start..self.words.len().min(start + length)];
        // A good entry, as most are, is known by two comparisons; only the first bad one is
        // judged by number.
        let good = |entry: &Bytes| {
            let word = u32::from_le_bytes(*entry);
            word & !0xFF == 7 << 28 && (word as u8) < modulus
        };
        if let Some(bad) = entries.iter().position(|entry| !good(entry)) {
            self.at += bad;
            self.following(Kind::Entry)?;
            return Err(self.refuse(7));
        }
        self.at += entries.len();
        if entries.len() < length {
            self.at += 1;
            return Err(self.refuse(10));
        }
        Ok(Table::InFile(entries))
    }

    fn select(&mut self, word: u32) -> Result<Wire<'f>, Refusal> {
        let bit = (word & 0x3FF) as u16;
        let bit_modulus = self.modulus_of(bit)?;
        self.check(bit_modulus == 2, 6)?;
        self.room_for_wire()?;
        // The select's own wire is not among the wires yet, so its branches cannot name it.
        let (a, b) = two_wires(self.following(Kind::Branches)?);
        let modulus = self.common_modulus(a, b)?;
        let gate = Gate::Select { bit, a, b };
        Ok(Wire { gate, modulus })
    }

    /// Steps to a word that belongs to the gate before it.
    fn following(&mut self, due: Kind) -> Result<u32, Refusal> {
        let (kind, word) = self.next()?;
        self.check(kind == due, 3)?;
        Ok(word)
    }

    fn output(&mut self, word: u32) -> Result<(), Refusal> {
        let (named, wire) = byte_and_wire(word);
        self.modulus_of(wire)?;
        self.check(self.outputs.len() < MOST_OUTPUTS, 8)?;
        self.outputs.push(Output { wire, named });
        Ok(())
    }

    /// The modulus of a wire that must have been made.
    fn modulus_of(&self, wire: u16) -> Result<u8, Refusal> {
        match self.wires.get(usize::from(wire)) {
            Some(wire) => Ok(wire.modulus),
            None => Err(self.refuse(5)),
        }
    }

    fn common_modulus(&self, a: u16, b: u16) -> Result<u8, Refusal> {
        let modulus = self.modulus_of(a)?;
        let other = self.modulus_of(b)?;
        self.check(modulus == other, 6)?;
        Ok(modulus)
    }

    fn room_for_wire(&self) -> Result<(), Refusal> {
        self.check(self.wires.len() < MOST_WIRES, 8)
    }

    /// After the end word even a part of a word counts as one.
    fn nothing_follows(&mut self, left_over: &[u8]) -> Result<(), Refusal> {
        self.at += 1;
        self.check(self.at == self.words.len() && left_over.is_empty(), 10)
    }
}

#[cfg(test)]
mod tests {
    use super::*;
    use crate::word::*;

    fn answer(words: &[u32]) -> Result<Counts, (u32, usize)> {
        read(&file(words))
            .map(|circuit| circuit.counts())
            .map_err(|refusal| (refusal.number, refusal.place))
    }

    fn rows(words: &[u32]) -> u32 {
        answer(words).expect("accepted").rows
    }

    #[test]
    fn there_are_54_moduli() {
        assert_eq!(MODULI.iter().filter(|prime| **prime).count(), 54);
        assert!(is_modulus(2) && is_modulus(251));
        assert!(!is_modulus(1) && !is_modulus(253));
    }

    #[test]
    fn rows_of_the_examples() {
        let [one, other] = [input(0, 251), input(1, 251)];
        let product = [HEAD, one, other, multiply(0, 1), output(2), END];
        assert_eq!(rows(&product), 502);
        let select = [HEAD, input(0, 2), select(0), branches(0, 0), output(1), END];
        assert_eq!(rows(&select), 6);
        let project = [
            HEAD,
            input(0, 2),
            project(251, 0),
            entry(250),
            entry(0),
            output(1),
            END,
        ];
        assert_eq!(rows(&project), 2);
    }

    /// A wire times itself has as many rows as a projection of it, half as many as other products; a
    /// bit times itself has none.
    #[test]
    fn rows_of_squares() {
        for (p, due) in [(2, 0), (3, 3), (251, 251)] {
            let square = [HEAD, input(0, p), multiply(0, 0), output(1), END];
            assert_eq!(rows(&square), due);
        }
        // A wire of the same value is not the same wire: 2·2, 2·251.
        for (p, due) in [(2, 4), (251, 502)] {
            let equal = [scale(1, 0), multiply(0, 1), output(2), END];
            let equal = [&[HEAD, input(0, p)], &equal[..]].concat();
            assert_eq!(rows(&equal), due);
        }
        // A product, the square of a sum, and the square of that square: 10 + 5 + 5.
        let gates = [multiply(0, 1), add(0, 1), multiply(3, 3), multiply(4, 4)];
        let mixed = [
            &[HEAD, input(0, 5), input(1, 5)],
            &gates[..],
            &[output(5), END],
        ]
        .concat();
        assert_eq!(rows(&mixed), 20);
    }

    #[test]
    fn counts_of_every_gate_kind() {
        let words = [
            HEAD,
            input(0, 2),
            input(7, 3),
            add(1, 1),
            scale(2, 2),
            multiply(3, 1),
            project(5, 0),
            entry(4),
            entry(3),
            select(0),
            branches(1, 4),
            output(6),
            output(6),
            END,
        ];
        let expected = Counts {
            wires: 7,
            inputs: 2,
            outputs: 2,
            rows: 6 + 2 + 8,
            moduli: 3,
            records: 2 + 1 + 2 + 3,
        };
        assert_eq!(answer(&words), Ok(expected));
    }

    #[test]
    fn left_over_bytes_count_after_end_alone() {
        let mut bytes = file(&[HEAD, input(0, 2), output(0), END]);
        assert!(read(&bytes).is_ok());
        bytes.push(0);
        let after_end = Refusal {
            number: 10,
            place: 4,
        };
        assert_eq!(read(&bytes).unwrap_err(), after_end);
        let ran_out = Refusal {
            number: 10,
            place: 3,
        };
        assert_eq!(read(&bytes[..15]).unwrap_err(), ran_out);
    }

    #[test]
    fn tables_are_judged_entry_by_entry() {
        let start = [HEAD, input(0, 3), project(2, 0), entry(1)];
        let with = |word: u32| answer(&[&start[..], &[word]].concat());
        assert_eq!(with(entry(1)), Err((10, 5)));
        assert_eq!(with(entry(2)), Err((7, 4)));
        assert_eq!(with(entry(2) | 1 << 8), Err((2, 4)));
        assert_eq!(with(0), Err((2, 4)));
        assert_eq!(with(END), Err((3, 4)));
        assert_eq!(with(HEAD), Err((3, 4)));
    }

    #[test]
    fn a_branch_may_not_name_its_own_select() {
        let words = [HEAD, input(0, 2), select(0), branches(0, 1)];
        assert_eq!(answer(&words), Err((5, 3)));
    }

    #[test]
    fn end_without_output_comes_before_what_follows() {
        assert_eq!(answer(&[HEAD, END, END]), Err((9, 1)));
    }
}

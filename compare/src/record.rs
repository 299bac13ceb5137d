//! Records: a circuit as a list of its inputs, gates and outputs, beside the tables of its
//! projections.

use crate::circuit::{Circuit, Gate, Refusal, Wire, read};
use crate::session::check_lengths;

/// One input, gate or output, as C lays it out; what its kind does not use is 0.
#[repr(C)]
#[derive(Clone, Copy, Debug, Default, PartialEq, Eq)]
pub struct Record {
    pub kind: u32,
    pub modulus: u32,
    pub owner: u32,
    pub constant: u32,
    pub bit: u32,
    pub a: u32,
    pub b: u32,
    /// Of an output, the seats that it names: bit s for seat s.
    pub named: u8,
}

/// How many numbers a record has, beside the byte that names seats.
pub const FIELDS: usize = 7;

/// The kinds that records have: those of the words that start an input, a gate or an output.
pub const INPUT: u32 = 2;
pub const ADD: u32 = 3;
pub const SCALE: u32 = 4;
pub const MULTIPLY: u32 = 5;
pub const PROJECT: u32 = 6;
pub const SELECT: u32 = 8;
pub const OUTPUT: u32 = 10;

const NOTHING: Record = Record {
    kind: 0,
    modulus: 0,
    owner: 0,
    constant: 0,
    bit: 0,
    a: 0,
    b: 0,
    named: 0,
};

impl Record {
    pub const fn input(owner: u32, modulus: u32) -> Self {
        Record {
            kind: INPUT,
            owner,
            modulus,
            ..NOTHING
        }
    }

    pub const fn add(a: u32, b: u32) -> Self {
        Record::two_wired(ADD, a, b)
    }

    pub const fn multiply(a: u32, b: u32) -> Self {
        Record::two_wired(MULTIPLY, a, b)
    }

    const fn two_wired(kind: u32, a: u32, b: u32) -> Self {
        Record {
            kind,
            a,
            b,
            ..NOTHING
        }
    }

    pub const fn scale(constant: u32, a: u32) -> Self {
        Record {
            kind: SCALE,
            constant,
            a,
            ..NOTHING
        }
    }

    pub const fn project(modulus: u32, a: u32) -> Self {
        Record {
            kind: PROJECT,
            modulus,
            a,
            ..NOTHING
        }
    }

    pub const fn select(bit: u32, a: u32, b: u32) -> Self {
        Record {
            kind: SELECT,
            bit,
            a,
            b,
            ..NOTHING
        }
    }

    /// An output that names nobody, and so is for everybody.
    pub const fn output(a: u32) -> Self {
        Record::named_output(0, a)
    }

    pub const fn named_output(named: u8, a: u32) -> Self {
        Record {
            kind: OUTPUT,
            a,
            named,
            ..NOTHING
        }
    }

    /// The record with nothing but what its kind uses; none where no record has the kind.
    pub const fn bare(&self) -> Option<Record> {
        Some(match self.kind {
            INPUT => Record::input(self.owner, self.modulus),
            ADD | MULTIPLY => Record::two_wired(self.kind, self.a, self.b),
            SCALE => Record::scale(self.constant, self.a),
            PROJECT => Record::project(self.modulus, self.a),
            SELECT => Record::select(self.bit, self.a, self.b),
            OUTPUT => Record::named_output(self.named, self.a),
            _ => return None,
        })
    }

    /// Whether every field is narrow enough for the bits that a word has for it. The byte that names
    /// seats always is.
    pub fn fits(&self) -> bool {
        let bytes = [self.modulus, self.owner, self.constant];
        let wires = [self.bit, self.a, self.b];
        bytes.iter().all(|byte| *byte < 1 << 8) && wires.iter().all(|wire| *wire < 1 << 10)
    }

    /// All numbers, in the order in which they lie.
    pub fn fields_mut(&mut self) -> [&mut u32; FIELDS] {
        let Record {
            kind,
            modulus,
            owner,
            constant,
            bit,
            a,
            b,
            ..
        } = self;
        [kind, modulus, owner, constant, bit, a, b]
    }
}

/// Records, and the tables of their projections one after another.
#[derive(Clone, Debug, Default, PartialEq, Eq)]
pub struct List {
    pub records: Vec<Record>,
    pub tables: Vec<u8>,
}

impl List {
    /// A circuit's records, wires before outputs.
    pub fn of(circuit: &Circuit) -> Self {
        let wires = circuit.wires.iter().map(of_wire);
        let outputs = circuit
            .outputs
            .iter()
            .map(|output| Record::named_output(output.named, output.wire.into()));
        let mut tables = Vec::new();
        for wire in &circuit.wires {
            if let Gate::Project { a, table } = wire.gate {
                tables.extend((0..circuit.modulus(a)).map(|value| table.image(value)));
            }
        }
        List {
            records: wires.chain(outputs).collect(),
            tables,
        }
    }
}

fn of_wire(wire: &Wire) -> Record {
    match wire.gate {
        Gate::Input { owner } => Record::input(owner.into(), wire.modulus.into()),
        Gate::Add { a, b } => Record::add(a.into(), b.into()),
        Gate::Scale { constant, a } => Record::scale(constant.into(), a.into()),
        Gate::Multiply { a, b } => Record::multiply(a.into(), b.into()),
        Gate::Project { a, .. } => Record::project(wire.modulus.into(), a.into()),
        Gate::Select { bit, a, b } => Record::select(bit.into(), a.into(), b.into()),
    }
}

/// Writes a file's records and tables into lent buffers, whose lengths must be exact.
pub fn records(file: &[u8], records: &mut [Record], tables: &mut [u8]) -> Result<(), Refusal> {
    let list = List::of(&read(file)?);
    check_lengths(&[
        (records.len(), list.records.len()),
        (tables.len(), list.tables.len()),
    ])?;
    records.copy_from_slice(&list.records);
    tables.copy_from_slice(&list.tables);
    Ok(())
}

//! Bits times themselves, which are copies: which ones a round has that came out right, and what every
//! opening must show of them.

use super::step::{Name, Step};
use crate::call::{ACCEPTED, After};
use crate::counts::Counts;
use compare::circuit::{Circuit, Gate, MOST_WIRES, Wire, read};
use compare::generate::settings::Setting;
use std::collections::BTreeSet;

pub const HEADING: &str = "right rounds with copies, by key length";

const OF_INPUT: &str = "of an input";
const OF_SUM: &str = "of a sum";
const OF_ROWS: &str = "of a gate with rows";
const OF_COPY: &str = "of a copy";
const OUTPUT: &str = "that is an output";
const BIT: &str = "that is a select's bit";
const BRANCH: &str = "that is a select's branch";
const PROJECTED: &str = "that is projected";
const TIMES_ANOTHER: &str = "in a product with another bit";
const TIMES_ITS_BIT: &str = "in a product with the bit that it copies";
const TIMES_THE_SAME: &str = "in a product with a third wire of the same bit";
const BESIDE_SQUARE: &str = "beside a square of modulus 3";

/// Each must be met with every key length.
pub const SORTS: [&str; 12] = [
    OF_INPUT,
    OF_SUM,
    OF_ROWS,
    OF_COPY,
    OUTPUT,
    BIT,
    BRANCH,
    PROJECTED,
    TIMES_ANOTHER,
    TIMES_ITS_BIT,
    TIMES_THE_SAME,
    BESIDE_SQUARE,
];

pub const CIRCUITS: &str = "right rounds of circuits with copies";

pub const SORTS_OF_CIRCUITS: [&str; 2] = ["without rows", "of 1,024 wires"];

/// Counts a round that came out right.
pub fn count(setting: &Setting, counts: &mut Counts) {
    let circuit = read(&setting.file).expect("an accepted circuit");
    if !circuit.wires.iter().any(Wire::is_copy) {
        return;
    }
    for sort in sorts(&circuit) {
        counts.add(HEADING, sort, setting.k);
    }
    let is = [
        circuit.counts().rows == 0,
        circuit.wires.len() == MOST_WIRES,
    ];
    counts.add_met(CIRCUITS, &SORTS_OF_CIRCUITS, &is, 0);
}

/// The sorts that the copies of a circuit are of; it has some.
fn sorts(circuit: &Circuit) -> BTreeSet<&'static str> {
    let mut sorts = BTreeSet::new();
    for wire in &circuit.wires {
        sorts.extend(bit_of(wire).and_then(|bit| source(wire_of(circuit, bit))));
        sorts.extend(uses(circuit, &wire.gate));
        if wire.is_square() && wire.modulus == 3 {
            sorts.insert(BESIDE_SQUARE);
        }
    }
    for output in &circuit.outputs {
        if wire_of(circuit, output.wire).is_copy() {
            sorts.insert(OUTPUT);
        }
    }
    sorts
}

fn wire_of<'c>(circuit: &'c Circuit, number: u16) -> &'c Wire<'c> {
    &circuit.wires[usize::from(number)]
}

/// The bit that a copy copies.
fn bit_of(copy: &Wire) -> Option<u16> {
    match copy.gate {
        Gate::Multiply { a, .. } if copy.is_copy() => Some(a),
        _ => None,
    }
}

/// What a bit that is copied comes of.
fn source(bit: &Wire) -> Option<&'static str> {
    match bit.gate {
        Gate::Input { .. } => Some(OF_INPUT),
        Gate::Add { .. } => Some(OF_SUM),
        _ if bit.is_copy() => Some(OF_COPY),
        _ if bit.rows() > 0 => Some(OF_ROWS),
        _ => None,
    }
}

/// What a gate uses copies as.
fn uses(circuit: &Circuit, gate: &Gate) -> Vec<&'static str> {
    let is_copy = |wire: u16| wire_of(circuit, wire).is_copy();
    let mut uses = Vec::new();
    match *gate {
        Gate::Project { a, .. } if is_copy(a) => uses.push(PROJECTED),
        Gate::Multiply { a, b } if a != b && (is_copy(a) || is_copy(b)) => {
            uses.push(product(circuit, a, b));
        }
        Gate::Select { bit, a, b } => {
            uses.extend(is_copy(bit).then_some(BIT));
            uses.extend((is_copy(a) || is_copy(b)).then_some(BRANCH));
        }
        _ => {}
    }
    uses
}

/// The sort of a product of two wires, one of which is a copy.
fn product(circuit: &Circuit, a: u16, b: u16) -> &'static str {
    let copies = |one: u16, other: u16| bit_of(wire_of(circuit, one)) == Some(other);
    if copies(a, b) || copies(b, a) {
        TIMES_ITS_BIT
    } else if origin(circuit, a) == origin(circuit, b) {
        TIMES_THE_SAME
    } else {
        TIMES_ANOTHER
    }
}

/// The wire whose bit this one holds whatever the values are: of a copy that of its bit, and so of a
/// multiple of a bit, since that is by 1.
fn origin(circuit: &Circuit, number: u16) -> u16 {
    let wire = wire_of(circuit, number);
    match wire.gate {
        Gate::Scale { a, .. } if wire.modulus == 2 => origin(circuit, a),
        _ => bit_of(wire).map_or(number, |bit| origin(circuit, bit)),
    }
}

/// Whether in an accepted opening each copy has all parties' keys, and the external value, of its bit;
/// nothing is said of another call, or where there is no copy.
pub fn are_copied(step: &Step, after: &After) -> Option<bool> {
    if step.name != Name::Open || after.answer != ACCEPTED {
        return None;
    }
    let circuit = read(&step.file).expect("the file is judged before");
    let [.., keys, externals] = &after.loan.buffers[..] else {
        unreachable!("opening writes two buffers");
    };
    let size = (step.n * step.k) as usize;
    let opened = |wire: usize| {
        let keys = &keys.content()[wire * size..][..size];
        (keys, externals.content()[wire])
    };
    let mut same = Vec::new();
    for (number, wire) in circuit.wires.iter().enumerate() {
        let bit = bit_of(wire).map(usize::from);
        same.extend(bit.map(|bit| opened(number) == opened(bit)));
    }
    (!same.is_empty()).then(|| same.iter().all(|same| *same))
}

//! What a round that came out right shows: which gates its circuit has at which moduli, and which of
//! their rows were opened.

use compare::circuit::{Circuit, Gate, MOST_OUTPUTS, MOST_WIRES, Output};
use compare::pair::total_rows;
use std::collections::BTreeSet;

pub const HEADING: &str = "right rounds with gates, by modulus";

const FROM_0: &str = "projection from it, row 0";
const FROM: &str = "projection from it, another row";
const TO: &str = "projection to it";
const SQUARE_0: &str = "square, both rows 0";
const SQUARE: &str = "square, two other rows";
const PRODUCT_0_0: &str = "other product, both rows 0";
const PRODUCT_0: &str = "other product, row 0 and another";
const PRODUCT_OF_0: &str = "other product, another row and row 0";
const PRODUCT: &str = "other product, two other rows";

/// Each must be met at every modulus. Row 0 of a half is the one that is not written.
pub const SORTS: [&str; 9] = [
    FROM_0,
    FROM,
    TO,
    SQUARE_0,
    SQUARE,
    PRODUCT_0_0,
    PRODUCT_0,
    PRODUCT_OF_0,
    PRODUCT,
];

/// The sorts of gates that a circuit has, each with its modulus, and by the external values with
/// which it was opened.
pub fn sorts(circuit: &Circuit, externals: &[u8]) -> BTreeSet<(&'static str, u32)> {
    let is_0 = |wire: u16| externals[usize::from(wire)] == 0;
    let mut sorts = BTreeSet::new();
    for wire in &circuit.wires {
        let p = u32::from(wire.modulus);
        match wire.gate {
            Gate::Project { a, .. } => {
                let from = if is_0(a) { FROM_0 } else { FROM };
                sorts.extend([(from, u32::from(circuit.modulus(a))), (TO, p)]);
            }
            Gate::Multiply { a, b } => {
                let sort = match (a == b, is_0(a), is_0(b)) {
                    (true, true, _) => SQUARE_0,
                    (true, false, _) => SQUARE,
                    (false, true, true) => PRODUCT_0_0,
                    (false, true, false) => PRODUCT_0,
                    (false, false, true) => PRODUCT_OF_0,
                    (false, false, false) => PRODUCT,
                };
                sorts.insert((sort, p));
            }
            _ => {}
        }
    }
    sorts
}

pub const CIRCUITS: &str = "right rounds of circuits";

const MODULI: usize = 54;

/// 1,023 products at the largest modulus.
const MOST_ROWS: u32 = 1023 * 500;

/// The sorts of circuits that must be met.
pub const SORTS_OF_CIRCUITS: [&str; 9] = [
    "without gates",
    "without rows, but with gates",
    "of 1,024 wires",
    "of 1,024 inputs",
    "with 256 outputs",
    "with all 54 moduli",
    "with a wire that is output twice",
    "with outputs of one wire for other seats",
    "with as many rows as there may be",
];

/// Which of them a circuit is of.
pub fn of_circuit(circuit: &Circuit) -> [bool; 9] {
    let (wires, inputs) = (circuit.wires.len(), circuit.inputs);
    let rows = total_rows(circuit);
    let different: BTreeSet<&Output> = circuit.outputs.iter().collect();
    let output_wires: BTreeSet<u16> = circuit.outputs.iter().map(|output| output.wire).collect();
    [
        wires == inputs,
        wires > inputs && rows == 0,
        wires == MOST_WIRES,
        inputs == MOST_WIRES,
        circuit.outputs.len() == MOST_OUTPUTS,
        circuit.moduli().len() == MODULI,
        output_wires.len() < circuit.outputs.len(),
        output_wires.len() < different.len(),
        rows == MOST_ROWS,
    ]
}

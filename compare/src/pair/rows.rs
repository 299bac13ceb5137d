//! How many rows a gate has for two: of each half all but the first.

use crate::circuit::{Circuit, Gate, Wire};

/// The rows of a wire's gate: p − 1 of a projection from modulus p, twice as many of a product. Here
/// a wire times itself is a product like any other.
pub fn rows_of(circuit: &Circuit, wire: &Wire) -> u32 {
    match wire.gate {
        Gate::Project { a, .. } => u32::from(circuit.modulus(a)) - 1,
        Gate::Multiply { .. } => 2 * (u32::from(wire.modulus) - 1),
        // A circuit with a selector is refused before its rows are counted.
        Gate::Input { .. } | Gate::Add { .. } | Gate::Scale { .. } | Gate::Select { .. } => 0,
    }
}

pub fn total_rows(circuit: &Circuit) -> u32 {
    let rows = |wire: &Wire| rows_of(circuit, wire);
    circuit.wires.iter().map(rows).sum()
}

/// The modulus of each row's bytes: that of the wire that the row is for.
pub fn row_moduli(circuit: &Circuit) -> Vec<u8> {
    let of = |wire: &Wire| vec![wire.modulus; rows_of(circuit, wire) as usize];
    circuit.wires.iter().flat_map(of).collect()
}

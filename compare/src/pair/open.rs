//! Opening for two: the key and the external value of every wire, from the input keys and the rows.

use super::checks::circuit_for_two;
use super::rows::{row_moduli, rows_of, total_rows};
use crate::circuit::{Circuit, Gate, Refusal};
use crate::contribution::{combined, scaled};
use crate::pad::Row;
use crate::session::{check_keys, check_lengths, refuse_place};

/// Opens. The opener has nothing to compare keys with: whatever passes the checks opens to something,
/// under garbling's round number to the keys of the plain values.
pub fn open(
    file: &[u8],
    (k, round): (u32, u32),
    keys: &[u8],
    rows: &[u8],
    wire_keys: &mut [u8],
    wire_externals: &mut [u8],
) -> Result<(), Refusal> {
    let circuit = circuit_for_two(file, k)?;
    let k = k as usize;
    let wires = circuit.wires.len();
    check_lengths(&[
        (keys.len(), k * circuit.inputs),
        (rows.len(), k * total_rows(&circuit) as usize),
        (wire_keys.len(), k * wires),
        (wire_externals.len(), wires),
    ])?;
    check_keys(&circuit, k, keys)?;
    let moduli = row_moduli(&circuit);
    let bad = (0..rows.len()).find(|at| rows[*at] >= moduli[*at / k]);
    refuse_place(bad, 18)?;
    let mut opener = Opener {
        circuit: &circuit,
        k,
        round,
        keys: keys.chunks(k).map(<[u8]>::to_vec).collect(),
    };
    opener.gates(rows);
    wire_keys.copy_from_slice(&opener.keys.concat());
    for (external, key) in wire_externals.iter_mut().zip(&opener.keys) {
        *external = key[0];
    }
    Ok(())
}

struct Opener<'o> {
    circuit: &'o Circuit<'o>,
    k: usize,
    round: u32,
    /// Of all inputs from the start, and of each gate opened so far.
    keys: Vec<Vec<u8>>,
}

impl Opener<'_> {
    fn key(&self, wire: u16) -> &[u8] {
        &self.keys[usize::from(wire)]
    }

    /// Component 0 of a key is the external value.
    fn external(&self, wire: u16) -> usize {
        usize::from(self.key(wire)[0])
    }

    fn gates(&mut self, mut rows: &[u8]) {
        for number in self.circuit.inputs..self.circuit.wires.len() {
            let wire = &self.circuit.wires[number];
            let p = wire.modulus;
            let length = self.k * rows_of(self.circuit, wire) as usize;
            let (own, after) = rows.split_at(length);
            rows = after;
            let key = match wire.gate {
                Gate::Add { a, b } => combined(p, self.key(a), 1, self.key(b)),
                Gate::Scale { constant, a } => scaled(p, i32::from(constant), self.key(a)),
                Gate::Project { a, .. } => self.half(number, 0, a, own),
                Gate::Multiply { a, b } => self.product(number, a, b, own),
                Gate::Input { .. } => unreachable!("inputs are the lowest wires"),
                Gate::Select { .. } => unreachable!("refused by 26"),
            };
            self.keys.push(key);
        }
    }

    /// Both halves and β times a's key.
    fn product(&self, number: usize, a: u16, b: u16, rows: &[u8]) -> Vec<u8> {
        let p = self.circuit.wires[number].modulus;
        let (first, second) = rows.split_at(rows.len() / 2);
        let first = self.half(number, 0, a, first);
        let second = self.half(number, 1, b, second);
        let sum = combined(p, &first, 1, &second);
        combined(p, &sum, self.external(b) as i32, self.key(a))
    }

    /// The row that the external value of `sender` names, without its pad. Row 0, which is not
    /// written, is all zero.
    fn half(&self, number: usize, component: u8, sender: u16, rows: &[u8]) -> Vec<u8> {
        let q = self.circuit.wires[number].modulus;
        let row = Row {
            round: self.round,
            modulus: self.circuit.modulus(sender),
            wire: number,
            component,
            receiving: q,
        };
        let pads = row.pads(0, &[self.key(sender)]);
        let pads: Vec<u8> = pads.into_iter().map(|pad| pad as u8).collect();
        match self.external(sender) {
            0 => scaled(q, -1, &pads),
            external => {
                let entry = &rows[(external - 1) * self.k..][..self.k];
                combined(q, entry, -1, &pads)
            }
        }
    }
}

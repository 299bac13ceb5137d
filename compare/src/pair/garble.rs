//! Garbling for two: the rows of every gate and the outputs' masks, from the garbler's draw.

use super::checks::circuit_for_two;
use super::draw::{self, Draw};
use super::rows::total_rows;
use crate::circuit::{Circuit, Gate, Refusal, Table};
use crate::contribution::{combined, modulo, scaled};
use crate::meter::Meter;
use crate::pad::Row;
use crate::session::{check_account, check_lengths};

/// Garbles with keys of k bytes. The round number may be any: it only enters the pads. The rows are
/// charged to the account.
pub fn garble(
    file: &[u8],
    (k, round, account): (u32, u32, u32),
    draw: &[u8],
    rows: &mut [u8],
    output_masks: &mut [u8],
    meter: &mut Meter,
) -> Result<(), Refusal> {
    let circuit = circuit_for_two(file, k)?;
    let k = k as usize;
    let count = total_rows(&circuit);
    check_lengths(&[
        (draw.len(), draw::length(&circuit, k)),
        (rows.len(), k * count as usize),
        (output_masks.len(), circuit.outputs.len()),
    ])?;
    check_account(account)?;
    let draw = Draw::checked(&circuit, k, draw)?;
    meter.charge(account, count)?;
    let mut garbler = Garbler {
        circuit: &circuit,
        draw,
        round,
        zero_keys: Vec::with_capacity(circuit.wires.len()),
        rows: Vec::with_capacity(rows.len()),
    };
    garbler.wires();
    rows.copy_from_slice(&garbler.rows);
    for (mask, output) in output_masks.iter_mut().zip(&circuit.outputs) {
        *mask = garbler.mask(output.wire) as u8;
    }
    Ok(())
}

struct Garbler<'g> {
    circuit: &'g Circuit<'g>,
    draw: Draw<'g>,
    round: u32,
    /// Of each wire so far.
    zero_keys: Vec<Vec<u8>>,
    /// Of each gate so far.
    rows: Vec<u8>,
}

impl Garbler<'_> {
    fn zero(&self, wire: u16) -> &[u8] {
        &self.zero_keys[usize::from(wire)]
    }

    /// The mask of a wire: component 0 of its zero key.
    fn mask(&self, wire: u16) -> i32 {
        i32::from(self.zero(wire)[0])
    }

    /// The zero keys and rows of all wires, one after another: those of a gate follow from the keys
    /// of the wires before it.
    fn wires(&mut self) {
        for (number, wire) in self.circuit.wires.iter().enumerate() {
            let p = wire.modulus;
            let zero = match wire.gate {
                Gate::Input { .. } => self.draw.zero_key(number).to_vec(),
                Gate::Add { a, b } => combined(p, self.zero(a), 1, self.zero(b)),
                Gate::Scale { constant, a } => scaled(p, i32::from(constant), self.zero(a)),
                Gate::Project { a, table } => self.project(number, a, table),
                Gate::Multiply { a, b } => self.multiply(number, a, b),
                Gate::Select { .. } => unreachable!("refused by 26"),
            };
            self.zero_keys.push(zero);
        }
    }

    /// One half, which takes the value v of `a` to T(v): message k_z + T(α − m_a)·D.
    fn project(&mut self, number: usize, a: u16, table: Table) -> Vec<u8> {
        let (p, q) = (self.circuit.modulus(a), self.circuit.wires[number].modulus);
        let offset = self.draw.offset(q);
        let mask = self.mask(a);
        self.half(number, 0, a, |alpha| {
            let image = table.image(modulo(p, alpha - mask));
            scaled(q, i32::from(image), offset)
        })
    }

    /// The sum of two halves. The first takes the value v of `a` to −m_b·v, under a's keys. The second
    /// has the message k″ − β·k_a under b's key for the external value β.
    fn multiply(&mut self, number: usize, a: u16, b: u16) -> Vec<u8> {
        let p = self.circuit.wires[number].modulus;
        let offset = self.draw.offset(p);
        let (m_a, m_b) = (self.mask(a), self.mask(b));
        let k_a = self.zero(a).to_vec();
        let first = self.half(number, 0, a, |alpha| {
            let value = i32::from(modulo(p, alpha - m_a));
            scaled(p, -m_b * value, offset)
        });
        let second = self.half(number, 1, b, |beta| scaled(p, -beta, &k_a));
        combined(p, &first, 1, &second)
    }

    /// Writes the rows of a half under the keys of `sender`, and gives its zero key. `rest` is the
    /// message to an external value less that key, which is chosen so that message and pad of the
    /// external value 0 add up to zero: that row is not written.
    fn half(
        &mut self,
        number: usize,
        component: u8,
        sender: u16,
        rest: impl Fn(i32) -> Vec<u8>,
    ) -> Vec<u8> {
        let (p, q) = (
            self.circuit.modulus(sender),
            self.circuit.wires[number].modulus,
        );
        let padded = |external: i32| {
            let pad = self.pad(number, component, sender, external);
            combined(q, &pad, 1, &rest(external))
        };
        let zero = scaled(q, -1, &padded(0));
        let rows: Vec<u8> = (1..i32::from(p))
            .flat_map(|external| combined(q, &padded(external), 1, &zero))
            .collect();
        self.rows.extend(rows);
        zero
    }

    /// The pad under the key of `sender` for an external value: that of the value less the mask.
    fn pad(&self, number: usize, component: u8, sender: u16, external: i32) -> Vec<u8> {
        let p = self.circuit.modulus(sender);
        let row = Row {
            round: self.round,
            modulus: p,
            wire: number,
            component,
            receiving: self.circuit.wires[number].modulus,
        };
        let value = external - self.mask(sender);
        let key = combined(p, self.zero(sender), value, self.draw.offset(p));
        let pads = row.pads(0, &[key]);
        pads.into_iter().map(|pad| pad as u8).collect()
    }
}

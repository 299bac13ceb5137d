//! Garbling: the rows of every gate, from all parties' contributions.

use crate::circuit::{Circuit, Gate, Output, Refusal, read};
use crate::contribution::{Contribution, combined, length, modulo};
use crate::meter::Meter;
use crate::pad::Row;
use crate::session::{
    check_account, check_contributions, check_key_length, check_lengths, check_offsets,
    check_parties, check_seats,
};

/// What garbling writes.
pub struct Written<'b> {
    pub rows: &'b mut [u8],
    pub input_masks: &'b mut [u8],
    /// A sheet for each party.
    pub output_masks: &'b mut [u8],
}

/// What stands for an output that a party may not read, in its sheet of masks and among its figures.
/// No mask and no figure is as large.
pub const UNREAD: u8 = 255;

/// Garbles for n parties with keys of k bytes. The round number may be any: it only enters the pads.
/// The rows are charged to the account.
pub fn garble(
    file: &[u8],
    (n, k, round, account): (u32, u32, u32, u32),
    contributions: &[u8],
    written: Written,
    meter: &mut Meter,
) -> Result<(), Refusal> {
    let circuit = read(file)?;
    check_parties(n)?;
    check_key_length(k)?;
    check_seats(&circuit, n)?;
    let (n, k) = (n as usize, k as usize);
    let rows = circuit.counts().rows;
    let each = length(&circuit, k);
    check_lengths(&[
        (contributions.len(), n * each),
        (written.rows.len(), rows as usize * n * k),
        (written.input_masks.len(), circuit.inputs),
        (written.output_masks.len(), n * circuit.outputs.len()),
    ])?;
    check_account(account)?;
    check_contributions(&circuit, k, contributions)?;
    // Each party has offsets, as the circuit has a wire for its output.
    let parties: Vec<Contribution> = contributions
        .chunks(each)
        .map(|bytes| Contribution::new(&circuit, k, bytes))
        .collect();
    check_offsets(&parties)?;
    meter.charge(account, rows)?;
    let garbler = Garbler::new(&circuit, &parties, round);
    written.rows.copy_from_slice(&garbler.rows(&circuit));
    for (mask, wire) in written.input_masks.iter_mut().zip(0..) {
        *mask = garbler.mask(wire) as u8;
    }
    let sheets = (0..n as u32).flat_map(|party| garbler.sheet(&circuit, party));
    for (mask, of_sheet) in written.output_masks.iter_mut().zip(sheets) {
        *mask = of_sheet;
    }
    Ok(())
}

/// The masks of all wires: the sums of the parties' shares.
pub fn masks(circuit: &Circuit, parties: &[Contribution]) -> Vec<u8> {
    let mut masks: Vec<u8> = vec![0; circuit.wires.len()];
    for party in parties {
        let shares = party.mask_shares(circuit);
        for ((mask, share), wire) in masks.iter_mut().zip(shares).zip(&circuit.wires) {
            *mask = modulo(wire.modulus, i32::from(*mask) + i32::from(share[0]));
        }
    }
    masks
}

struct Garbler<'g, 'c> {
    parties: &'g [Contribution<'c>],
    round: u32,
    /// By party, then by wire.
    zero_keys: Vec<Vec<Vec<u8>>>,
    /// By wire.
    masks: Vec<u8>,
}

/// The keys under which rows are encrypted: a wire's, or those of a difference of two wires.
struct Senders {
    modulus: u8,
    /// Each party's key for the external value 0.
    zero_keys: Vec<Vec<u8>>,
}

impl<'g, 'c> Garbler<'g, 'c> {
    fn new(circuit: &Circuit, parties: &'g [Contribution<'c>], round: u32) -> Self {
        let zero_keys = parties.iter().map(|party| party.zero_keys(circuit));
        Garbler {
            parties,
            round,
            zero_keys: zero_keys.collect(),
            masks: masks(circuit, parties),
        }
    }

    fn mask(&self, wire: u16) -> i32 {
        i32::from(self.masks[usize::from(wire)])
    }

    /// A party's sheet: the mask of each output that it may read.
    fn sheet(&self, circuit: &Circuit, party: u32) -> Vec<u8> {
        let mask = |output: &Output| match output.is_for(party) {
            true => self.masks[usize::from(output.wire)],
            false => UNREAD,
        };
        circuit.outputs.iter().map(mask).collect()
    }

    /// A party's zero key of a wire.
    fn zero(&self, party: usize, wire: u16) -> &[u8] {
        &self.zero_keys[party][usize::from(wire)]
    }

    /// The sum over the parties of the record's mask shares with this index: 0 for the whole, then
    /// the first parts.
    fn recorded_mask(&self, wire: usize, index: usize, p: u8) -> i32 {
        let share = |party: &Contribution| i32::from(party.record(wire).shares[index]);
        self.parties.iter().map(share).sum::<i32>() % i32::from(p)
    }

    fn senders(&self, circuit: &Circuit, wire: u16) -> Senders {
        let parties = 0..self.parties.len();
        Senders {
            modulus: circuit.modulus(wire),
            zero_keys: parties.map(|j| self.zero(j, wire).to_vec()).collect(),
        }
    }

    /// All rows, in gate order.
    fn rows(&self, circuit: &Circuit) -> Vec<u8> {
        let mut rows = Vec::new();
        for (number, wire) in circuit.wires.iter().enumerate() {
            match wire.garbled() {
                Gate::Project { .. } => self.project(circuit, number, &mut rows),
                Gate::Multiply { .. } => self.multiply(circuit, number, &mut rows),
                Gate::Select { .. } => self.select(circuit, number, &mut rows),
                Gate::Input { .. } | Gate::Add { .. } | Gate::Scale { .. } => {}
            }
        }
        rows
    }

    /// One row: `message` gives the receiver's message from its number and a key component's place.
    fn row(
        &self,
        row: Row,
        senders: &Senders,
        external: i32,
        rows: &mut Vec<u8>,
        message: impl Fn(usize, usize) -> i32,
    ) {
        let keys: Vec<Vec<u8>> = (self.parties.iter().zip(&senders.zero_keys))
            .map(|(party, zero)| {
                let offset = party.offset(senders.modulus);
                combined(senders.modulus, zero, external, offset)
            })
            .collect();
        for receiver in 0..self.parties.len() {
            let pads = row.pads(receiver, &keys);
            let entry = |(at, pad): (usize, i32)| {
                let message = modulo(row.receiving, message(receiver, at));
                modulo(row.receiving, i32::from(message) + pad)
            };
            rows.extend(pads.into_iter().enumerate().map(entry));
        }
    }

    /// Row α: k_z + (T(α − m_a) + m_z)·D_q.
    fn project(&self, circuit: &Circuit, number: usize, rows: &mut Vec<u8>) {
        let wire = circuit.wires[number];
        let Gate::Project { a, table } = wire.garbled() else {
            return;
        };
        let (p, q) = (circuit.modulus(a), wire.modulus);
        let senders = self.senders(circuit, a);
        for alpha in 0..i32::from(p) {
            let image = i32::from(table.image(modulo(p, alpha - self.mask(a))));
            let factor = image + self.recorded_mask(number, 0, q);
            let row = Row {
                round: self.round,
                modulus: p,
                wire: number,
                component: 0,
                receiving: q,
            };
            self.row(row, &senders, alpha, rows, |i, at| {
                let k = i32::from(self.zero_keys[i][number][at]);
                k + factor * i32::from(self.parties[i].offset(q)[at])
            });
        }
    }

    fn multiply(&self, circuit: &Circuit, number: usize, rows: &mut Vec<u8>) {
        let wire = circuit.wires[number];
        let Gate::Multiply { a, b } = wire.garbled() else {
            return;
        };
        let p = wire.modulus;
        let (m_a, m_b) = (self.mask(a), self.mask(b));
        let first = self.recorded_mask(number, 1, p);
        let second = self.recorded_mask(number, 0, p) - first;
        let part = |i: usize, index: usize, at: usize| {
            i32::from(self.parties[i].record(number).keys[index][at])
        };
        let d = |i: usize, at: usize| i32::from(self.parties[i].offset(p)[at]);
        let row = |component: u8| Row {
            round: self.round,
            modulus: p,
            wire: number,
            component,
            receiving: p,
        };
        let under_a = self.senders(circuit, a);
        for alpha in 0..i32::from(p) {
            // k′ + (−m_b·α + m_b·m_a + m′)·D
            let factor = -m_b * alpha + m_b * m_a + first;
            self.row(row(0), &under_a, alpha, rows, |i, at| {
                part(i, 1, at) + factor * d(i, at)
            });
        }
        let under_b = self.senders(circuit, b);
        for beta in 0..i32::from(p) {
            // k″ − β·k_a + (m″ − β·m_a)·D
            let factor = second - beta * m_a;
            self.row(row(1), &under_b, beta, rows, |i, at| {
                let second_key = part(i, 0, at) - part(i, 1, at);
                let k_a = i32::from(self.zero(i, a)[at]);
                second_key - beta * k_a + factor * d(i, at)
            });
        }
    }

    fn select(&self, circuit: &Circuit, number: usize, rows: &mut Vec<u8>) {
        let wire = circuit.wires[number];
        let Gate::Select { bit, a, b } = wire.garbled() else {
            return;
        };
        let p = wire.modulus;
        let w = self.mask(bit);
        let m_d = self.mask(b) - self.mask(a);
        let k_d = |i: usize| combined(p, self.zero(i, b), -1, self.zero(i, a));
        let under_d = Senders {
            modulus: p,
            zero_keys: (0..self.parties.len()).map(k_d).collect(),
        };
        let part = |i: usize, index: usize, at: usize| {
            i32::from(self.parties[i].record(number).keys[index][at])
        };
        let mask = |index: usize| self.recorded_mask(number, index, p);
        let d = |i: usize, at: usize| i32::from(self.parties[i].offset(p)[at]);
        let row = |component: u8, modulus: u8| Row {
            round: self.round,
            modulus,
            wire: number,
            component,
            receiving: p,
        };
        // The chooser: k′0 + m′0·D, and k′1 − k_d + (m′1 − m_d)·D.
        let under_bit = self.senders(circuit, bit);
        self.row(row(0, 2), &under_bit, 0, rows, |i, at| {
            part(i, 1, at) + mask(1) * d(i, at)
        });
        self.row(row(0, 2), &under_bit, 1, rows, |i, at| {
            let k_d = i32::from(under_d.zero_keys[i][at]);
            part(i, 2, at) - k_d + (mask(2) - m_d) * d(i, at)
        });
        // The correctors: k″0 + (α·w − w·m_d + m″0)·D, and k″1 + (−α·w + w·m_d + m″1)·D.
        for (index, sign) in [(1, 1), (2, -1)] {
            for alpha in 0..i32::from(p) {
                let factor = sign * w * (alpha - m_d) + mask(0) - mask(index);
                self.row(row(index as u8, p), &under_d, alpha, rows, |i, at| {
                    part(i, 0, at) - part(i, index, at) + factor * d(i, at)
                });
            }
        }
    }
}

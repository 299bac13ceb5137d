//! Opening: keys and external values of every wire, from rows and input keys.

use crate::circuit::{Circuit, Gate, Refusal, read};
use crate::contribution::{Contribution, combined, length, modulo, scaled};
use crate::pad::Row;
use crate::session::{
    check_below, check_contributions, check_key_length, check_keys, check_lengths, check_offsets,
    check_parties, check_party, check_rows, check_seats, refuse_place,
};

/// What a party opens with.
pub struct Given<'b> {
    pub contribution: &'b [u8],
    pub externals: &'b [u8],
    pub keys: &'b [u8],
    pub rows: &'b [u8],
}

/// Opens at one party, writing every party's key of every wire, and its external value. The round
/// number may be any: under another than garbling's the pads are others, which only 20 can show.
pub fn open(
    file: &[u8],
    (n, k, party, round): (u32, u32, u32, u32),
    given: &Given,
    wire_keys: &mut [u8],
    wire_externals: &mut [u8],
) -> Result<(), Refusal> {
    let circuit = read(file)?;
    check_parties(n)?;
    check_key_length(k)?;
    check_party(n, party)?;
    check_seats(&circuit, n)?;
    let (n, k, party) = (n as usize, k as usize, party as usize);
    let counts = circuit.counts();
    let (wires, inputs) = (circuit.wires.len(), circuit.inputs);
    check_lengths(&[
        (given.contribution.len(), length(&circuit, k)),
        (given.externals.len(), inputs),
        (given.keys.len(), inputs * n * k),
        (given.rows.len(), counts.rows as usize * n * k),
        (wire_keys.len(), wires * n * k),
        (wire_externals.len(), wires),
    ])?;
    check_below(given.externals, circuit.input_moduli())?;
    check_contributions(&circuit, k, given.contribution)?;
    let own = Contribution::new(&circuit, k, given.contribution);
    check_offsets(std::slice::from_ref(&own))?;
    check_keys(&circuit, n * k, given.keys)?;
    check_rows(&circuit, n * k, given.rows)?;
    let mut opener = Opener {
        circuit: &circuit,
        n,
        k,
        party,
        round,
        zero_keys: own.zero_keys(&circuit),
        own,
        keys: Vec::with_capacity(wires),
        externals: given.externals.to_vec(),
    };
    opener.inputs(given.keys)?;
    let opened = opener.gates(given.rows);
    if opened.is_err() {
        wire_keys.fill(0);
        wire_externals.fill(0);
        return opened;
    }
    wire_keys.copy_from_slice(&opener.keys.concat());
    wire_externals.copy_from_slice(&opener.externals);
    Ok(())
}

struct Opener<'o> {
    circuit: &'o Circuit<'o>,
    n: usize,
    k: usize,
    party: usize,
    round: u32,
    own: Contribution<'o>,
    zero_keys: Vec<Vec<u8>>,
    /// Of each wire opened so far, all parties' keys one after another.
    keys: Vec<Vec<u8>>,
    /// Of all inputs from the start, and of each gate opened so far.
    externals: Vec<u8>,
}

impl Opener<'_> {
    /// This party's part of all parties' keys.
    fn own_part<'v>(&self, keys: &'v [u8]) -> &'v [u8] {
        &keys[self.party * self.k..][..self.k]
    }

    /// Takes the input keys over; 19 where this party's own is not the one its contribution gives.
    fn inputs(&mut self, keys: &[u8]) -> Result<(), Refusal> {
        self.keys
            .extend(keys.chunks(self.n * self.k).map(<[u8]>::to_vec));
        let wrong = (0..self.circuit.inputs).find(|wire| {
            let p = self.circuit.wires[*wire].modulus;
            let external = i32::from(self.externals[*wire]);
            let due = combined(p, &self.zero_keys[*wire], external, self.own.offset(p));
            self.own_part(&self.keys[*wire]) != due
        });
        refuse_place(wrong, 19)
    }

    /// Opens every gate in turn; 20 at the first where no multiplier fits.
    fn gates(&mut self, rows: &[u8]) -> Result<(), Refusal> {
        let mut rows = rows;
        for number in self.circuit.inputs..self.circuit.wires.len() {
            let wire = self.circuit.wires[number];
            let size = wire.rows() as usize * self.n * self.k;
            let (of_gate, after) = rows.split_at(size);
            rows = after;
            let (keys, external) = self.gate(number, of_gate)?;
            self.keys.push(keys);
            self.externals.push(external);
        }
        Ok(())
    }

    fn keys(&self, wire: u16) -> &[u8] {
        &self.keys[usize::from(wire)]
    }

    fn external(&self, wire: u16) -> i32 {
        i32::from(self.externals[usize::from(wire)])
    }

    /// The keys and the external value of one gate's wire.
    fn gate(&self, number: usize, rows: &[u8]) -> Result<(Vec<u8>, u8), Refusal> {
        let wire = self.circuit.wires[number];
        let p = wire.modulus;
        Ok(match wire.garbled() {
            Gate::Input { .. } => unreachable!("the inputs come before all gates"),
            Gate::Add { a, b } => (
                combined(p, self.keys(a), 1, self.keys(b)),
                modulo(p, self.external(a) + self.external(b)),
            ),
            Gate::Scale { constant, a } => {
                let constant = i32::from(constant);
                let external = modulo(p, constant * self.external(a));
                (scaled(p, constant, self.keys(a)), external)
            }
            Gate::Project { a, .. } => {
                let under = (self.circuit.modulus(a), self.keys(a));
                let keys = self.unpadded(number, 0, under, rows, self.external(a));
                let external = self.multiplier(number, &self.zero_keys[number], &keys)?;
                (keys, external)
            }
            Gate::Multiply { a, b } => {
                let keys = self.product(number, a, b, rows);
                let external = self.multiplier(number, &self.zero_keys[number], &keys)?;
                (keys, external)
            }
            Gate::Select { bit, a, b } => {
                let keys = self.chosen(number, bit, (a, b), rows);
                let zero = self.own.record(number).keys[0];
                let external = i32::from(self.multiplier(number, zero, &keys)?);
                (
                    combined(p, &keys, 1, self.keys(a)),
                    modulo(p, external + self.external(a)),
                )
            }
        })
    }

    /// Both components and β times a's keys.
    fn product(&self, number: usize, a: u16, b: u16, rows: &[u8]) -> Vec<u8> {
        let p = self.circuit.modulus(a);
        let (first, second) = rows.split_at(rows.len() / 2);
        let beta = self.external(b);
        let first = self.unpadded(number, 0, (p, self.keys(a)), first, self.external(a));
        let second = self.unpadded(number, 1, (p, self.keys(b)), second, beta);
        let sum = combined(p, &first, 1, &second);
        combined(p, &sum, beta, self.keys(a))
    }

    /// The chooser, and the corrector that the bit's external value names.
    fn chosen(&self, number: usize, bit: u16, (a, b): (u16, u16), rows: &[u8]) -> Vec<u8> {
        let p = self.circuit.modulus(a);
        let d = combined(p, self.keys(b), -1, self.keys(a));
        let alpha = i32::from(modulo(p, self.external(b) - self.external(a)));
        let external = self.external(bit);
        let (chooser, correctors) = rows.split_at(2 * self.n * self.k);
        let (at_0, at_1) = correctors.split_at(correctors.len() / 2);
        let chosen = self.unpadded(number, 0, (2, self.keys(bit)), chooser, external);
        let chosen = combined(p, &chosen, external, &d);
        let corrected = if external == 0 {
            self.unpadded(number, 1, (p, &d), at_0, alpha)
        } else {
            self.unpadded(number, 2, (p, &d), at_1, alpha)
        };
        combined(p, &chosen, 1, &corrected)
    }

    /// The row of this external value without its pads, for all receivers.
    fn unpadded(
        &self,
        number: usize,
        component: u8,
        (modulus, senders): (u8, &[u8]),
        rows: &[u8],
        external: i32,
    ) -> Vec<u8> {
        let q = self.circuit.wires[number].modulus;
        let row = Row {
            round: self.round,
            modulus,
            wire: number,
            component,
            receiving: q,
        };
        let senders: Vec<&[u8]> = senders.chunks(self.k).collect();
        let size = self.n * self.k;
        let entries = &rows[external as usize * size..][..size];
        let mut keys = Vec::with_capacity(size);
        for (receiver, entry) in entries.chunks(self.k).enumerate() {
            let pads = row.pads(receiver, &senders);
            let each = |(byte, pad): (&u8, i32)| modulo(q, i32::from(*byte) - pad);
            keys.extend(entry.iter().zip(pads).map(each));
        }
        keys
    }

    /// The multiplier α with this party's key = zero key + α·D; 20 where there is none.
    fn multiplier(&self, number: usize, zero: &[u8], keys: &[u8]) -> Result<u8, Refusal> {
        let p = self.circuit.wires[number].modulus;
        let (key, offset) = (self.own_part(keys), self.own.offset(p));
        (0..p)
            .find(|alpha| combined(p, zero, i32::from(*alpha), offset) == key)
            .ok_or(Refusal {
                number: 20,
                place: number,
            })
    }
}

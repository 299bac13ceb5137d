//! Circuits with bundles among their inputs, and parts among their gates.

use super::bundle_numbers::primes_of;
use super::circuits::{Builder, palette};
use super::named::named;
use crate::plain::plain;
use crate::rng::Rng;
use crate::word::{self, END};
use std::ops::Range;

/// Wires in a row, one for each of the first primes.
#[derive(Clone, Copy, Debug, PartialEq, Eq)]
pub struct Bundle {
    pub first: u32,
    pub r: u32,
}

impl Bundle {
    fn wires(&self) -> Range<u32> {
        self.first..self.first + self.r
    }
}

/// A circuit in the making, for n parties: inputs with their values, then gates, then outputs.
pub struct Draft<'r> {
    builder: Builder<'r>,
    n: u32,
    values: Vec<u8>,
    outputs: usize,
}

impl<'r> Draft<'r> {
    pub fn new(rng: &'r mut Rng, n: u32) -> Self {
        let palette = palette(rng);
        Draft {
            builder: Builder::new(rng, palette),
            n,
            values: Vec::new(),
            outputs: 0,
        }
    }

    /// The bundle of so many wires that are made next.
    pub fn next_bundle(&self, r: u32) -> Bundle {
        let first = self.builder.moduli().len() as u32;
        Bundle { first, r }
    }

    fn party(&mut self) -> u32 {
        self.builder.rng().below(self.n as usize) as u32
    }

    fn input(&mut self, owner: u32, p: u32, value: u8) {
        self.builder.push_wire(word::input(owner, p), p);
        self.values.push(value);
    }

    /// Inputs with these residues; mostly they are one party's, but they need not be.
    pub fn bundle(&mut self, residues: &[u8]) -> Bundle {
        let bundle = self.next_bundle(residues.len() as u32);
        let owner = self.party();
        let shared = self.builder.rng().once_in(4);
        for (p, residue) in primes_of(bundle.r).into_iter().zip(residues) {
            let owner = if shared { self.party() } else { owner };
            self.input(owner, p, *residue);
        }
        bundle
    }

    /// So many inputs of any moduli and values.
    pub fn inputs(&mut self, count: usize) {
        for _ in 0..count {
            let (owner, p) = (self.party(), self.builder.modulus());
            let any = self.builder.rng().below(p as usize) as u8;
            let value = self.builder.rng().pick(&[any, any, 0, p as u8 - 1]);
            self.input(owner, p, value);
        }
    }

    /// So many gates of any kind, on any wires.
    pub fn gates(&mut self, count: usize) {
        self.builder.gates(count);
    }

    /// The words of a part, which is to make a bundle at the next wire.
    pub fn part(&mut self, r: u32, words: &[u32]) -> Bundle {
        let bundle = self.next_bundle(r);
        self.builder.append(words, &primes_of(r));
        bundle
    }

    /// A bundle of other gates in a row, on any wires.
    pub fn bundle_of_gates(&mut self, r: u32) -> Bundle {
        let bundle = self.next_bundle(r);
        for p in primes_of(r) {
            self.builder.gate_of(p);
        }
        bundle
    }

    /// The plain values of a bundle's wires. There are none where the circuit so far is refused, as
    /// it is if the words of a part or the residues lent are wrong.
    pub fn values_of(&self, bundle: Bundle) -> Option<Vec<u8>> {
        let mut words = self.builder.words().to_vec();
        words.extend(bundle.wires().map(word::output).chain([END]));
        let mut values = vec![0; bundle.r as usize];
        plain(&word::file(&words), &self.values, &mut values).ok()?;
        Some(values)
    }

    /// The file of the circuit so far, with one output.
    pub fn file_so_far(&self) -> Vec<u8> {
        let words = self.builder.words();
        word::file(&[words, &[word::output(0), END]].concat())
    }

    /// So many outputs of any wires, for any of the parties.
    pub fn outputs(&mut self, count: usize) {
        for _ in 0..count {
            self.builder.output(self.n);
        }
        self.outputs += count;
    }

    /// The outputs of a bundle, all for the same parties; which one is the first.
    pub fn outputs_of(&mut self, bundle: Bundle) -> usize {
        let named = named(self.n, self.builder.rng());
        for wire in bundle.wires() {
            self.builder.push(word::named_output(named.into(), wire));
        }
        self.outputs += bundle.r as usize;
        self.outputs - bundle.r as usize
    }

    /// The circuit's file, and the values of its inputs.
    pub fn end(self) -> (Vec<u8>, Vec<u8>) {
        (word::file(&self.builder.end()), self.values)
    }
}

#[cfg(test)]
mod tests {
    use super::*;
    use crate::circuit::{Output, read};
    use crate::generate::bundle_numbers::residues;
    use crate::session::check_seats;

    #[test]
    fn bundles_are_where_they_are_said_to_be() {
        let mut rng = Rng::new(1);
        for case in 0..500 {
            let n = 2 + case % 7;
            let [one, other] = [2 + case % 9, 10 - case % 9].map(|r| residues(r, &mut rng));
            let mut draft = Draft::new(&mut rng, n);
            let some = draft.builder.rng().below(4);
            draft.inputs(some);
            let bundles = [draft.bundle(&one), draft.bundle(&other)];
            draft.inputs(some);
            draft.gates(4);
            let made = draft.bundle_of_gates(2 + case % 9);
            let carried = [one, other, draft.values_of(made).expect("accepted so far")];
            draft.gates(some);
            draft.outputs(some);
            let bundles = [bundles[0], bundles[1], made];
            let places = bundles.map(|bundle| draft.outputs_of(bundle));
            let (file, values) = draft.end();
            let circuit = read(&file).expect("accepted");
            assert_eq!(check_seats(&circuit, n), Ok(()));
            let moduli: Vec<u32> = circuit.output_moduli().map(u32::from).collect();
            let mut outputs = vec![0; moduli.len()];
            plain(&file, &values, &mut outputs).expect("values below their moduli");
            for ((bundle, place), carried) in bundles.into_iter().zip(places).zip(carried) {
                let r = bundle.r as usize;
                let outputs_of = &circuit.outputs[place..][..r];
                let first = u32::from(outputs_of[0].wire);
                assert_eq!(first, bundle.first);
                let same = |output: &Output| output.named == outputs_of[0].named;
                assert!(outputs_of.iter().all(same));
                assert_eq!(moduli[place..][..r], primes_of(bundle.r));
                assert_eq!(outputs[place..][..r], carried);
            }
        }
    }
}

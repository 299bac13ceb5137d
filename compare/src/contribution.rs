//! A party's contribution: its offsets, then its record of each wire.

use crate::circuit::{Circuit, Gate, Wire};

/// How many bytes a contribution has at this key length.
pub fn length(circuit: &Circuit, k: usize) -> usize {
    let counts = circuit.counts();
    k * counts.moduli as usize + (k + 1) * counts.records as usize
}

/// The modulus of each byte of a contribution.
pub fn byte_moduli(circuit: &Circuit, k: usize) -> Vec<u8> {
    let mut moduli = Vec::with_capacity(length(circuit, k));
    for p in circuit.moduli() {
        moduli.extend(vec![p; k]);
    }
    for wire in &circuit.wires {
        moduli.extend(vec![wire.modulus; (k + 1) * wire.records() as usize]);
    }
    moduli
}

/// A contribution taken apart.
pub struct Contribution<'c> {
    offsets: Vec<(u8, &'c [u8])>,
    records: Vec<Record<'c>>,
}

/// A wire's record: the whole key, then its first parts, and the shares of their masks in the same
/// order. A wire that is a sum or multiple of others has no keys and no shares here.
pub struct Record<'c> {
    pub keys: Vec<&'c [u8]>,
    pub shares: &'c [u8],
}

impl<'c> Contribution<'c> {
    /// Takes bytes of the right length apart.
    pub fn new(circuit: &Circuit, k: usize, bytes: &'c [u8]) -> Self {
        let mut rest = bytes;
        let mut next = |length: usize| {
            let (part, after) = rest.split_at(length);
            rest = after;
            part
        };
        let moduli = circuit.moduli().into_iter();
        let offsets = moduli.map(|p| (p, next(k))).collect();
        let mut record = |wire: &Wire| {
            let count = wire.records() as usize;
            let keys = (0..count).map(|_| next(k)).collect();
            let shares = next(count);
            Record { keys, shares }
        };
        let records = circuit.wires.iter().map(&mut record).collect();
        Contribution { offsets, records }
    }

    pub fn offset(&self, modulus: u8) -> &'c [u8] {
        let same = |offset: &&(u8, &'c [u8])| offset.0 == modulus;
        self.offsets.iter().find(same).expect("a modulus in use").1
    }

    /// The lowest modulus whose offset is zero.
    pub fn zero_offset(&self) -> Option<u8> {
        let zero = |offset: &&(u8, &[u8])| offset.1.iter().all(|byte| *byte == 0);
        self.offsets.iter().find(zero).map(|offset| offset.0)
    }

    pub fn record(&self, wire: usize) -> &Record<'c> {
        &self.records[wire]
    }

    /// The zero keys of all wires.
    pub fn zero_keys(&self, circuit: &Circuit) -> Vec<Vec<u8>> {
        let own = |wire: usize| self.records[wire].keys.first().map(|key| key.to_vec());
        along_wires(circuit, own)
    }

    /// The shares of all wires' masks, each as a key of one byte.
    pub fn mask_shares(&self, circuit: &Circuit) -> Vec<Vec<u8>> {
        let own = |wire: usize| self.records[wire].shares.first().map(|share| vec![*share]);
        along_wires(circuit, own)
    }
}

/// What each wire has of its own, or as the sum or multiple of what its wires have; a select's own
/// belongs to the product within it, and the branch at 0 is added.
fn along_wires(circuit: &Circuit, own: impl Fn(usize) -> Option<Vec<u8>>) -> Vec<Vec<u8>> {
    let mut found: Vec<Vec<u8>> = Vec::with_capacity(circuit.wires.len());
    for (number, wire) in circuit.wires.iter().enumerate() {
        let at = |wire: u16| &found[usize::from(wire)][..];
        let due = || own(number).expect("this kind of wire has a record");
        let p = wire.modulus;
        found.push(match wire.garbled() {
            Gate::Input { .. } | Gate::Project { .. } | Gate::Multiply { .. } => due(),
            Gate::Select { a, .. } => combined(p, &due(), 1, at(a)),
            Gate::Add { a, b } => combined(p, at(a), 1, at(b)),
            Gate::Scale { constant, a } => scaled(p, i32::from(constant), at(a)),
        });
    }
    found
}

/// A number modulo p, from 0 on.
pub fn modulo(p: u8, number: i32) -> u8 {
    number.rem_euclid(i32::from(p)) as u8
}

/// x + factor·y modulo p, component by component.
pub fn combined(p: u8, x: &[u8], factor: i32, y: &[u8]) -> Vec<u8> {
    let each = |(x, y): (&u8, &u8)| modulo(p, i32::from(*x) + factor * i32::from(*y));
    x.iter().zip(y).map(each).collect()
}

/// factor·x modulo p, component by component.
pub fn scaled(p: u8, factor: i32, x: &[u8]) -> Vec<u8> {
    x.iter()
        .map(|x| modulo(p, factor * i32::from(*x)))
        .collect()
}

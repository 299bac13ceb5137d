//! The circuits with which every run of rounds begins: every key length, every modulus, and the
//! largest of each sort. Chance would leave some of them out.

use super::circuits::all_moduli;
use crate::rng::Rng;
use crate::word::{self, END, HEAD};

/// The words of a case's circuit, the number of parties and the key length.
pub fn circuit(case: u64, rng: &mut Rng) -> Option<(Vec<u32>, u32, u32)> {
    Some(match case {
        1..=128 => {
            let k = case as u32;
            let (p, q) = [(2, 3), (3, 2), (5, 3)][case as usize % 3];
            let words = [every_kind(p, q), copies()].concat();
            (all_output(words, EVERY_KIND + 12), 2 + k % 7, k)
        }
        129..183 => {
            let p = all_moduli()[case as usize - 129];
            (all_output(every_kind(p, 2), EVERY_KIND), 2, 2)
        }
        183 => (all_output(every_kind(251, 251), EVERY_KIND), 8, 128),
        184 => (full(rng), 8, 128),
        185 => (full(rng), 2, 1),
        186 => (many_moduli(), 8, 128),
        187 => (selects(), 8, 1),
        188 => (tables(), 2, 1),
        189 => (copies_alone(), 8, 128),
        _ => return None,
    })
}

/// Every kind of gate, on wires of modulus p, and projections to modulus q and back. There are
/// squares of a projection, of a square and of a sum; the last product is of two wires that have
/// the same value, which does not make it a square. Wires 0 and 1 are bits.
fn every_kind(p: u32, q: u32) -> Vec<u32> {
    let image = |value: u32| value * value + value / 2 + 1;
    let mut words = vec![HEAD];
    words.extend([2, 2, p, p].map(|p| word::input(0, p)));
    words.extend([word::multiply(2, 3), word::add(4, 2), word::scale(p - 1, 5)]);
    words.extend([word::select(0), word::branches(6, 4), word::project(q, 7)]);
    words.extend((0..p).map(|value| word::entry(image(value) % q)));
    words.push(word::project(p, 8));
    words.extend((0..q).map(|value| word::entry(image(value) % p)));
    words.extend([
        word::multiply(9, 9),
        word::multiply(10, 10),
        word::multiply(5, 5),
    ]);
    words.extend([word::scale(1, 12), word::multiply(12, 13)]);
    words
}

/// How many wires these are.
const EVERY_KIND: u32 = 15;

/// Twelve gates that go on from there with bits times themselves, copies. They stand in products with
/// another bit, with the bit that was copied, and with what that is a copy of: the same bit, but not the
/// same wire.
fn copies() -> Vec<u32> {
    vec![
        word::multiply(0, 0),   // wire 15: a copy of an input
        word::multiply(15, 15), // a copy of that
        word::add(16, 1),
        word::multiply(17, 17), // wire 18: a copy of a sum
        word::multiply(18, 1),
        word::multiply(19, 19), // wire 20: a copy of a product
        word::multiply(0, 16),
        word::select(20), // wire 22: by a copy, a copy or a sum
        word::branches(16, 17),
        word::project(3, 15), // wire 23: a copy by a table
        word::entry(1),
        word::entry(2),
        word::multiply(23, 23), // a square of modulus 3
        word::multiply(22, 22), // wire 25: a copy of a select
        word::multiply(18, 17),
    ]
}

/// The words with all of so many wires as outputs. The last of every kind is output three times, so that
/// it may be for some and for others.
fn all_output(mut words: Vec<u32>, wires: u32) -> Vec<u32> {
    let outputs = (0..wires).chain([EVERY_KIND - 1; 2]);
    words.extend(outputs.map(word::output));
    words.push(END);
    words
}

/// As many bits times themselves as there may be, each of the one before: no rows at all.
fn copies_alone() -> Vec<u32> {
    let mut words = vec![HEAD, word::input(0, 2)];
    words.extend((0..1023).map(|wire| word::multiply(wire, wire)));
    words.extend((768..1024).map(word::output));
    words.push(END);
    words
}

/// As many wires and outputs as there may be, most of them made without rows.
fn full(rng: &mut Rng) -> Vec<u32> {
    let mut words = vec![HEAD];
    words.extend([word::input(0, 2); 4]);
    for wire in 4..1024 {
        let (a, b) = (rng.below(wire) as u32, rng.below(wire) as u32);
        match wire % 128 {
            0 => words.push(word::multiply(a, b)),
            1 => words.extend([word::select(a), word::branches(b, a)]),
            2 => words.extend([word::project(2, a), word::entry(1), word::entry(0)]),
            _ if wire % 4 == 3 => words.push(word::multiply(a, a)),
            _ => words.push(word::add(a, b)),
        }
    }
    words.extend((768..1024).map(word::output));
    words.push(END);
    words
}

/// A wire of every modulus.
fn many_moduli() -> Vec<u32> {
    let mut words = vec![HEAD];
    words.extend(all_moduli().into_iter().map(|p| word::input(0, p)));
    words.extend([word::multiply(0, 0), word::multiply(3, 3)]);
    words.extend((0..56).map(word::output));
    words.push(END);
    words
}

/// As many selects as there may be: the longest contributions.
fn selects() -> Vec<u32> {
    let mut words = vec![HEAD, word::input(0, 2)];
    for wire in 1..1024 {
        let (a, b) = (wire / 2, wire - 1);
        words.extend([word::select(wire / 3), word::branches(a, b)]);
    }
    words.extend([word::output(1023), END]);
    words
}

/// Nearly as many of the longest tables as there may be.
fn tables() -> Vec<u32> {
    let mut words = vec![HEAD, word::input(0, 251), word::input(0, 251)];
    for wire in 2..1000 {
        words.push(word::project(251, wire - 2));
        words.extend((0..251).map(|value| word::entry((value * 3 + wire) % 251)));
    }
    words.extend([word::output(998), word::output(999), END]);
    words
}

#[cfg(test)]
mod tests {
    use super::*;
    use crate::circuit::read;

    #[test]
    fn the_circuits_of_the_sweep_are_good() {
        let mut rng = Rng::new(1);
        for case in 1..=189 {
            let (words, ..) = circuit(case, &mut rng).expect("in the sweep");
            assert!(read(&word::file(&words)).is_ok(), "case {case}");
        }
        assert!(circuit(0, &mut rng).is_none());
        assert!(circuit(190, &mut rng).is_none());
    }

    fn rows(case: u64) -> u32 {
        let (words, ..) = circuit(case, &mut Rng::new(1)).expect("in the sweep");
        let file = word::file(&words);
        read(&file).expect("accepted").counts().rows
    }

    /// Two products of 2p rows, three squares of p, a select of 2p + 2, projections of p and of 2. At 2
    /// the squares have no rows.
    #[test]
    fn every_modulus_has_squares_beside_products() {
        for (p, case) in all_moduli().into_iter().zip(129..) {
            let squares = if p == 2 { 0 } else { 3 * p };
            assert_eq!(rows(case), 7 * p + squares + 4);
        }
    }

    /// Beside gates of modulus 2, 3 or 5, and 3, 2 or 3: three products of 4 rows, a select of 6, a
    /// projection of 2 and a square of 3. Six of the last twelve gates have none.
    #[test]
    fn every_key_length_has_copies() {
        for case in 1..=128 {
            let every_kind = [14 + 2 + 3, 30 + 2 + 2, 50 + 2 + 3][case as usize % 3];
            assert_eq!(rows(case), every_kind + 23);
        }
        assert_eq!(rows(189), 0);
    }
}

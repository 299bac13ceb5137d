//! The circuits with which every run of rounds for two begins: every key length, every modulus, the
//! missing rows, and the largest of each sort. Chance would leave some of them out.

use super::circuits::all_moduli;
use crate::rng::Rng;
use crate::word::{self, END, HEAD};

/// The words of a circuit, the key length, and of its first inputs whether their external values are
/// to be 0.
pub type Swept = (Vec<u32>, u32, &'static [bool]);

/// Which of the first two inputs have the external value 0: the row that it names is not written.
const ZEROS: [&[bool]; 4] = [
    &[false, false],
    &[true, false],
    &[false, true],
    &[true, true],
];

/// The sweep is cases 1 to one below this; case 0 is that of the examples.
pub const CASES: u64 = 357;

pub fn circuit(case: u64, rng: &mut Rng) -> Option<Swept> {
    Some(match case {
        1..=128 => {
            let (p, q) = [(2, 3), (3, 2), (5, 3)][case as usize % 3];
            (every_kind(p, q), case as u32, &[])
        }
        129..345 => {
            let (at, zeros) = ((case - 129) as usize / 4, (case - 129) as usize % 4);
            let p = all_moduli()[at];
            let q = [2, 251, 3, p][zeros];
            (every_kind(p, q), 1 + at as u32 % 3, ZEROS[zeros])
        }
        345 => (every_kind(251, 251), 128, &[]),
        346 => (vec![HEAD, word::input(0, 2), word::output(0), END], 1, &[]),
        347 => (
            vec![HEAD, word::input(0, 251), word::output(0), END],
            128,
            &[],
        ),
        348 => (inputs(2), 1, &[]),
        349 => (inputs(251), 128, &[]),
        350 => (full(rng), 1, &[]),
        351 => (full(rng), 128, &[]),
        352 => (many_moduli(), 1, &[]),
        353 => (many_moduli(), 128, &[]),
        354 => (products(), 1, &[]),
        355 => (bits(), 17, &[true, true]),
        356 => (tables(), 2, &[]),
        _ => return None,
    })
}

/// Every kind of gate but a selector, on wires of modulus p, and projections to modulus q and back.
/// Products are of two inputs, of an input with itself, of a square with itself, and of a sum with
/// multiples of it, one of them by 1, which do not make it a square.
fn every_kind(p: u32, q: u32) -> Vec<u32> {
    let image = |value: u32| value * value + value / 2 + 1;
    let mut words = vec![HEAD, word::input(0, p), word::input(0, p)];
    // Wires 2 to 4: a product, a square, and the product the other way about.
    words.extend([
        word::multiply(0, 1),
        word::multiply(0, 0),
        word::multiply(1, 0),
    ]);
    words.push(word::project(q, 0));
    words.extend((0..p).map(|value| word::entry(image(value) % q)));
    words.push(word::project(p, 5));
    words.extend((0..q).map(|value| word::entry(image(value) % p)));
    // Wires 7 to 10: a square of a square, a sum, a multiple of it, and their product.
    words.extend([word::multiply(3, 3), word::add(2, 6)]);
    words.extend([word::scale(p - 1, 8), word::multiply(8, 9)]);
    // Wires 11 and 12: the sum by 1, and their product.
    words.extend([word::scale(1, 8), word::multiply(8, 11)]);
    words.extend((0..13).map(word::output));
    words.push(END);
    words
}

/// As many inputs as there may be, and outputs of some of them.
fn inputs(p: u32) -> Vec<u32> {
    let mut words = vec![HEAD];
    words.extend([word::input(0, p); 1024]);
    words.extend((0..256).map(|at| word::output(4 * at + 3)));
    words.push(END);
    words
}

/// As many wires and outputs as there may be, most of them made without rows.
fn full(rng: &mut Rng) -> Vec<u32> {
    let mut words = vec![HEAD];
    words.extend([word::input(0, 3); 4]);
    for wire in 4..1024 {
        let (a, b) = (rng.below(wire) as u32, rng.below(wire) as u32);
        match wire % 64 {
            0 => words.push(word::multiply(a, b)),
            1 => words.push(word::project(3, a)),
            2 => words.push(word::multiply(a, a)),
            3 => words.push(word::scale(2, a)),
            _ => words.push(word::add(a, b)),
        }
        if wire % 64 == 1 {
            words.extend([1, 2, 1].map(word::entry));
        }
    }
    words.extend((768..1024).map(word::output));
    words.push(END);
    words
}

/// A wire of every modulus, and a product and a projection of most.
fn many_moduli() -> Vec<u32> {
    let moduli = all_moduli();
    let mut words = vec![HEAD];
    words.extend(moduli.iter().map(|p| word::input(0, *p)));
    words.extend([0, 1, 2, 3].map(|wire| word::multiply(wire, wire)));
    // From each of the least moduli to one of the greatest.
    for wire in 0..4 {
        words.push(word::project(moduli[53 - wire as usize], wire));
        words.extend((0..moduli[wire as usize]).map(|value| word::entry(100 * value % 223)));
    }
    words.extend((0..62).map(word::output));
    words.push(END);
    words
}

/// As many rows as there may be: a single input, and products of the largest modulus.
fn products() -> Vec<u32> {
    let mut words = vec![HEAD, word::input(0, 251)];
    words.extend((1..1024).map(|wire| word::multiply(wire - 1, wire / 2)));
    words.extend([word::output(1023), word::output(0), END]);
    words
}

/// As many products of the least modulus as there may be, every other one a square.
fn bits() -> Vec<u32> {
    let mut words = vec![HEAD, word::input(0, 2), word::input(0, 2)];
    for wire in 2..1024 {
        let b = [wire - 1, wire - 2][wire as usize % 2];
        words.push(word::multiply(wire - 1, b));
    }
    words.extend((768..1024).map(word::output));
    words.push(END);
    words
}

/// Many of the longest tables.
fn tables() -> Vec<u32> {
    let mut words = vec![HEAD, word::input(0, 251), word::input(0, 251)];
    for wire in 2..50 {
        words.push(word::project(251, wire - 2));
        words.extend((0..251).map(|value| word::entry((value * 3 + wire) % 251)));
    }
    words.extend([word::output(48), word::output(49), END]);
    words
}

#[cfg(test)]
mod tests {
    use super::*;
    use crate::circuit::read as read_circuit;
    use crate::pair::read;

    #[test]
    fn the_circuits_of_the_sweep_are_good() {
        let mut rng = Rng::new(1);
        for case in 1..CASES {
            let (words, k, zeros) = circuit(case, &mut rng).expect("in the sweep");
            let file = word::file(&words);
            assert!(read(&file).is_ok(), "case {case}");
            assert!((1..=128).contains(&k));
            let inputs = read_circuit(&file).expect("accepted").inputs;
            assert!(zeros.len() <= inputs);
        }
        assert!(circuit(0, &mut rng).is_none());
        assert!(circuit(CASES, &mut rng).is_none());
    }

    /// Six products of 2(p − 1) rows, and projections of p − 1 and of q − 1.
    #[test]
    fn every_modulus_has_its_rows() {
        let mut rng = Rng::new(1);
        for (at, p) in all_moduli().into_iter().enumerate() {
            for (zeros, q) in [2, 251, 3, p].into_iter().enumerate() {
                let case = 129 + 4 * at as u64 + zeros as u64;
                let (words, ..) = circuit(case, &mut rng).expect("in the sweep");
                assert_eq!(read(&word::file(&words)), Ok(13 * (p - 1) + q - 1));
            }
        }
    }

    /// 1,023 products of 500 rows each.
    #[test]
    fn there_are_as_many_rows_as_there_may_be() {
        assert_eq!(read(&word::file(&products())), Ok(511_500));
    }
}

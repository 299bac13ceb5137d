//! Numbers for the calls of bundles: good ones, ones at the edges and wrong ones.

use crate::bundle::{join, primes, product};
use crate::rng::Rng;

/// The primes of a bundle that there can be.
pub fn primes_of(r: u32) -> Vec<u32> {
    primes(r).expect("2 to 10 primes")
}

/// How many integers such a bundle carries.
pub fn product_of(r: u32) -> u64 {
    product(&primes_of(r))
}

/// Numbers of primes that no bundle has; most of them would be r if they were cut to fewer bits.
pub fn wrong_counts(r: u32) -> Vec<u32> {
    let near = [0, 1, 11, 12];
    let cut = [4, 8, 16, 24, 31].map(|bits| r + (1 << bits));
    let far = [0_u32.wrapping_sub(r), u32::MAX];
    [&near[..], &cut, &far].concat()
}

/// Integers, good or wrong, around the ends of what a bundle carries, or one of a prime less or more,
/// and around what 32 and 64 bits hold.
pub fn edge_integers(r: u32) -> Vec<u64> {
    let whole = product_of(r);
    let edges = [
        0,
        whole,
        2 * whole,
        product_of(r.max(3) - 1),
        product_of(r.min(9) + 1),
        1 << 32,
        (1 << 32) + whole,
        1 << 63,
    ];
    let near = |edge: u64| [edge.wrapping_sub(1), edge, edge.wrapping_add(1)];
    edges.into_iter().flat_map(near).collect()
}

/// An integer that a bundle carries.
pub fn integer(r: u32, rng: &mut Rng) -> u64 {
    let whole = product_of(r);
    if rng.once_in(6) {
        return rng.pick(&[0, 1, whole - 1]);
    }
    rng.next_u64() % whole
}

/// An integer that it does not carry; some would do if they were cut to 32 bits or reduced.
pub fn wrong_integer(r: u32, rng: &mut Rng) -> u64 {
    let (good, whole) = (integer(r, rng), product_of(r));
    let any = rng.next_u64() >> rng.below(32);
    let raised = [whole, 1 << 32, 1 << 33, 1 << 48, 1 << 63].map(|by| good + by);
    let mut numbers = [&raised[..], &edge_integers(r), &[any]].concat();
    numbers.retain(|number| *number >= whole);
    rng.pick(&numbers)
}

/// An integer that is 0 modulo some of the first primes, but not modulo the others.
pub fn integer_with_zeros(zeros: &[bool], rng: &mut Rng) -> u64 {
    let r = zeros.len() as u32;
    let mut residue = |(zero, p): (&bool, u32)| match zero {
        true => 0,
        false => rng.between(1, p as usize - 1) as u8,
    };
    let residues: Vec<u8> = zeros.iter().zip(primes_of(r)).map(&mut residue).collect();
    let mut integer = 0;
    join(r, &residues, &mut integer).expect("residues below their primes");
    integer
}

/// How many words a scale part has: one for each prime, and a table where the constant is 0.
pub fn words_of_scale(r: u32, constant: u64) -> usize {
    let words = |p: u32| match constant % u64::from(p) {
        0 => 1 + p as usize,
        _ => 1,
    };
    primes_of(r).into_iter().map(words).sum()
}

/// A residue for each prime, now and then all the lowest or the highest.
pub fn residues(r: u32, rng: &mut Rng) -> Vec<u8> {
    let manner = rng.below(10);
    let mut residue = |p: u32| match manner {
        0 => 0,
        1 => p as u8 - 1,
        _ => rng.below(p as usize) as u8,
    };
    primes_of(r).into_iter().map(&mut residue).collect()
}

/// First wires of parts, good or wrong: around the lowest that leaves room for a bundle before it,
/// around the highest, and such that a sum with r does not fit 32 bits.
pub fn edge_firsts(r: u32) -> Vec<u32> {
    let near = [0, 1, r - 1, r, r + 1, 2 * r];
    let high = [1023 - r, 1024 - r, 1025 - r, 1023, 1024, 1025];
    let far = [(1 << 16) + r, 1 << 31, 0_u32.wrapping_sub(r + 1)];
    let wrapping = [0, 1, r - 1].map(|sum| sum.wrapping_sub(r));
    [&near[..], &high, &far, &wrapping].concat()
}

/// First wires of bundles, good or wrong, for a part that starts there.
pub fn edge_bundles(r: u32, first: u32) -> Vec<u32> {
    let below = first.wrapping_sub(r);
    let near = [below.wrapping_sub(1), below, below.wrapping_add(1)];
    let own = [first.wrapping_sub(1), first, first.wrapping_add(1)];
    let cut = [10, 16, 31].map(|bits| below.wrapping_add(1 << bits));
    let wrapping = [0, 1, r - 1].map(|sum| sum.wrapping_sub(r));
    [&[0, 1][..], &near, &own, &cut, &wrapping].concat()
}

#[cfg(test)]
mod tests {
    use super::*;
    use crate::bundle::scale;

    #[test]
    fn wrong_numbers_are_wrong_and_good_ones_are_good() {
        let mut rng = Rng::new(1);
        for r in 2..=10 {
            assert!(
                wrong_counts(r)
                    .into_iter()
                    .all(|wrong| primes(wrong).is_err())
            );
            for _ in 0..200 {
                assert!(integer(r, &mut rng) < product_of(r));
                assert!(wrong_integer(r, &mut rng) >= product_of(r));
                let residues = residues(r, &mut rng);
                let mut pairs = residues.iter().zip(primes_of(r));
                assert!(pairs.all(|(residue, p)| u32::from(*residue) < p));
            }
        }
    }

    #[test]
    fn scales_have_as_many_words_as_are_foretold() {
        let mut rng = Rng::new(1);
        for r in 2..=10 {
            for constant in [0, 1, product_of(r) - 1, integer(r, &mut rng)] {
                let (mut file, mut words) = ([0; 600], 0);
                scale(r, (r, 0), constant, &mut file, &mut words).expect("room");
                assert_eq!(words_of_scale(r, constant), words as usize);
            }
        }
        // Ten projections, and as many entries as the ten primes add up to.
        assert_eq!(words_of_scale(10, 0), 10 + 129);
    }

    #[test]
    fn zeros_are_where_they_are_asked_for() {
        let mut rng = Rng::new(1);
        for r in 2..=10 {
            for asked in 0..1 << r {
                let zeros: Vec<bool> = (0..r).map(|at| asked >> at & 1 == 1).collect();
                let integer = integer_with_zeros(&zeros, &mut rng);
                assert!(integer < product_of(r));
                let is_zero = |p: u32| integer.is_multiple_of(p.into());
                let found: Vec<bool> = primes_of(r).into_iter().map(is_zero).collect();
                assert_eq!(found, zeros);
            }
        }
    }
}

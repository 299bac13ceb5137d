//! Bundles: an integer on wires in a row, one wire for each of the first primes. Splits integers
//! into residues, joins them back, and writes the parts of a circuit that reckon with bundles.

use crate::circuit::{MOST_WIRES, Refusal, is_modulus};
use crate::session::{check_lengths, refuse_unless};
use crate::word;
use crate::writer::lay_down;

/// The primes of a bundle, ascending. 23: it has 2 to 10 of them.
pub fn primes(r: u32) -> Result<Vec<u32>, Refusal> {
    refuse_unless((2..=10).contains(&r), 23, 0)?;
    let moduli = (0..=255).filter(|p| is_modulus(*p));
    Ok(moduli.take(r as usize).map(u32::from).collect())
}

/// How many integers a bundle of these primes can carry.
pub fn product(primes: &[u32]) -> u64 {
    primes.iter().map(|p| u64::from(*p)).product()
}

/// 24: the integer, or the constant, is below the product.
fn check_integer(integer: u64, primes: &[u32]) -> Result<(), Refusal> {
    refuse_unless(integer < product(primes), 24, 0)
}

/// Writes an integer's residues.
pub fn split(r: u32, integer: u64, residues: &mut [u8]) -> Result<(), Refusal> {
    let primes = primes(r)?;
    check_lengths(&[(residues.len(), primes.len())])?;
    check_integer(integer, &primes)?;
    for (residue, p) in residues.iter_mut().zip(primes) {
        *residue = (integer % u64::from(p)) as u8;
    }
    Ok(())
}

/// Writes the one integer below the product that has these residues.
///
/// It is found by trying. A number that has the residues of some primes keeps them where their
/// product is added to it, and comes by all residues of the next prime so.
pub fn join(r: u32, residues: &[u8], integer: &mut u64) -> Result<(), Refusal> {
    let primes = primes(r)?;
    check_lengths(&[(residues.len(), primes.len())])?;
    let mut pairs = residues.iter().zip(&primes);
    let below = pairs.all(|(residue, p)| u32::from(*residue) < *p);
    refuse_unless(below, 24, 0)?;
    let (mut found, mut step) = (0, 1);
    for (residue, p) in residues.iter().zip(primes).map(in_64_bits) {
        while found % p != residue {
            found += step;
        }
        step *= p;
    }
    *integer = found;
    Ok(())
}

fn in_64_bits((residue, p): (&u8, u32)) -> (u64, u64) {
    (u64::from(*residue), u64::from(p))
}

/// The first wire that a part makes, and the first wires of its two bundles.
pub type Wires = (u32, u32, u32);

/// Writes the part that adds two bundles, and how many words it has.
pub fn add(r: u32, wires: Wires, file: &mut [u8], words: &mut u32) -> Result<(), Refusal> {
    let part = of_two(r, wires, word::add)?;
    lay_down(&part, file, words)
}

/// The same for multiplying them.
pub fn multiply(r: u32, wires: Wires, file: &mut [u8], words: &mut u32) -> Result<(), Refusal> {
    let part = of_two(r, wires, word::multiply)?;
    lay_down(&part, file, words)
}

/// The words of a part that takes two bundles: this one for each prime.
fn of_two(r: u32, (first, a, b): Wires, word: fn(u32, u32) -> u32) -> Result<Vec<u32>, Refusal> {
    primes(r)?;
    check_wires(r, first, &[a, b])?;
    Ok((0..r).map(|wire| word(a + wire, b + wire)).collect())
}

/// Writes the part that multiplies a bundle by a constant, and how many words it has.
pub fn scale(
    r: u32,
    (first, a): (u32, u32),
    constant: u64,
    file: &mut [u8],
    words: &mut u32,
) -> Result<(), Refusal> {
    let primes = primes(r)?;
    check_integer(constant, &primes)?;
    check_wires(r, first, &[a])?;
    let gates = (a..).zip(primes);
    let gates = gates.flat_map(|(wire, p)| scaled(constant, wire, p));
    lay_down(&gates.collect::<Vec<u32>>(), file, words)
}

/// The words of the gate that multiplies a wire of modulus p by a constant. No scale takes 0, so
/// that is a projection of all values to 0.
fn scaled(constant: u64, wire: u32, p: u32) -> Vec<u32> {
    match (constant % u64::from(p)) as u32 {
        0 => {
            let mut words = vec![word::project(p, wire)];
            words.extend((0..p).map(|_| word::entry(0)));
            words
        }
        residue => vec![word::scale(residue, wire)],
    }
}

/// 5: each bundle lies wholly below the part's first wire. 8: the part ends within the 1,024 wires.
fn check_wires(r: u32, first: u32, bundles: &[u32]) -> Result<(), Refusal> {
    // 32 bits do not hold every such sum.
    let end = |start: u32| u64::from(start) + u64::from(r);
    let below = bundles.iter().all(|start| end(*start) <= u64::from(first));
    refuse_unless(below, 5, 0)?;
    refuse_unless(end(first) <= MOST_WIRES as u64, 8, 0)
}

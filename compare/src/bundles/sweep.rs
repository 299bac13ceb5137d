//! What each run begins with, one number of primes a case: all that is small enough to be gone
//! through, and all edges. It is the same in every run but for the numbers and bytes drawn.

use super::call::{Call, Name};
use super::case::Case;
use super::counts::ALL;
use compare::generate::bundle_numbers::{
    edge_bundles, edge_firsts, edge_integers, integer, integer_with_zeros, primes_of, product_of,
    residues, words_of_scale, wrong_counts,
};
use std::ops::RangeInclusive;

/// How many cases there are.
pub const CASES: u64 = 9;

/// The highest number of primes of which every integer has its turn.
const EVERY_INTEGER: u32 = 6;

/// The pieces of the sweep, and with which numbers of primes each makes calls.
pub const PIECES: [(&str, RangeInclusive<u32>); 7] = [
    ("every integer", 2..=EVERY_INTEGER),
    ("every length of residues", ALL),
    ("every byte among residues", ALL),
    ("edges of integers", ALL),
    ("edges of wires", ALL),
    ("every zero", ALL),
    ("every length of a file", ALL),
];

impl Case<'_> {
    pub fn sweep(&mut self) {
        self.swept("every integer", Self::every_integer);
        self.swept("every length of residues", Self::every_length);
        self.swept("every byte among residues", Self::every_byte);
        self.swept("edges of integers", Self::edges_of_integers);
        self.swept("edges of wires", Self::edges_of_wires);
        self.swept("every zero", Self::every_zero);
        self.swept("every length of a file", Self::every_buffer);
    }

    /// One piece of the sweep, and how many calls it makes.
    fn swept(&mut self, name: &str, piece: fn(&mut Self, u32)) {
        let (r, before) = (self.r(), self.tally.calls);
        piece(self, r);
        let calls = self.tally.calls - before;
        self.tally.swept.add(name, r, calls);
    }

    /// Both round trips: from every integer, and from every choice of residues. There are too many
    /// with more primes.
    fn every_integer(&mut self, r: u32) {
        if r > EVERY_INTEGER {
            return;
        }
        let primes = primes_of(r);
        let mut residues = vec![0; r as usize];
        for integer in 0..product_of(r) {
            self.split_and_joined(r, integer);
            self.joined_and_split(r, &residues);
            count_on(&mut residues, &primes);
        }
    }

    /// Residues in buffers of every length, also where the number of primes is wrong.
    fn every_length(&mut self, r: u32) {
        let mut counts = wrong_counts(r);
        counts.push(r);
        for count in counts {
            for length in (0..=13).chain([256 + r as usize]) {
                let integer = integer(r, &mut self.rng);
                let call = self.split_call(count, integer, length);
                self.with_and_without_null(call);
                let mut bytes = residues(r, &mut self.rng);
                bytes.resize(length, 0);
                let call = self.join_call(count, &bytes);
                self.with_and_without_null(call);
            }
        }
    }

    fn with_and_without_null(&mut self, call: Call) {
        for nulls in [false, true] {
            self.make(&Call {
                nulls,
                ..call.clone()
            });
        }
    }

    /// Every byte at every place among residues that are good.
    fn every_byte(&mut self, r: u32) {
        for at in 0..r as usize {
            for byte in 0..=255 {
                let mut bytes = residues(r, &mut self.rng);
                bytes[at] = byte;
                let call = self.join_call(r, &bytes);
                self.make(&call);
            }
        }
    }

    /// Integers at an edge: split, and joined again where that can be, and as constants.
    fn edges_of_integers(&mut self, r: u32) {
        for integer in edge_integers(r) {
            if integer < product_of(r) {
                self.split_and_joined(r, integer);
            } else {
                let call = self.split_call(r, integer, r as usize);
                self.make(&call);
            }
            self.scale(r, integer, 4 * words_of_scale(r, integer));
        }
    }

    /// Every first wire at an edge with every such choice of bundles.
    fn edges_of_wires(&mut self, r: u32) {
        let length = 4 * r as usize;
        for first in edge_firsts(r) {
            let bundles = edge_bundles(r, first);
            for a in &bundles {
                for b in &bundles {
                    self.part(Name::Add, r, (first, *a, *b), length);
                    self.part(Name::Multiply, r, (first, *a, *b), length);
                }
                self.part(Name::Scale, r, (first, *a, 0), length);
            }
        }
    }

    /// The writing of a part into a buffer of this length; a scale is by 1.
    fn part(&mut self, name: Name, r: u32, (first, a, b): (u32, u32, u32), length: usize) {
        let buffer = self.rng.bytes(length);
        let call = Call {
            integer: 1,
            first,
            a,
            b,
            ..self.bare(name, r, buffer)
        };
        self.make(&call);
    }

    /// A scale of a bundle that stands right before the part.
    fn scale(&mut self, r: u32, constant: u64, length: usize) {
        let buffer = self.rng.bytes(length);
        let call = Call {
            integer: constant,
            first: r,
            ..self.bare(Name::Scale, r, buffer)
        };
        self.make(&call);
    }

    /// Constants that are 0 modulo none of the primes, all, just one and all but one.
    fn every_zero(&mut self, r: u32) {
        let places = 0..r as usize;
        let mut choices = vec![vec![false; r as usize], vec![true; r as usize]];
        for one in places.clone() {
            choices.push(places.clone().map(|at| at == one).collect());
            choices.push(places.clone().map(|at| at != one).collect());
        }
        for zeros in choices {
            let constant = integer_with_zeros(&zeros, &mut self.rng);
            self.scale(r, constant, 4 * words_of_scale(r, constant));
        }
    }

    /// Buffers of every length up to some more than the words take.
    fn every_buffer(&mut self, r: u32) {
        let wires = (2 * r, 0, r);
        for length in 0..=4 * r as usize + 5 {
            self.part(Name::Add, r, wires, length);
            self.part(Name::Multiply, r, wires, length);
        }
        for constant in [0, 1, 2, product_of(r) / 2] {
            for length in 0..=4 * words_of_scale(r, constant) + 5 {
                self.scale(r, constant, length);
            }
        }
    }
}

/// The next choice of residues; after the last comes the first.
fn count_on(residues: &mut [u8], primes: &[u32]) {
    for (residue, p) in residues.iter_mut().zip(primes) {
        *residue += 1;
        if u32::from(*residue) < *p {
            return;
        }
        *residue = 0;
    }
}

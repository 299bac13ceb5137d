//! A part among the gates of a circuit: which bundles it takes, and what it must reckon.

use super::call::{Call, Name};
use compare::generate::bundle_circuits::Bundle;
use compare::generate::bundle_numbers::{
    integer_with_zeros, primes_of, product_of, words_of_scale,
};
use compare::rng::Rng;

#[derive(Clone, Copy, Debug, PartialEq, Eq, PartialOrd, Ord)]
pub enum Sort {
    Add,
    Double,
    Multiply,
    Square,
    Scale,
    ScaleWithZeros,
    ScaleByZero,
}

use Sort::{Add, Double, Multiply, Scale, ScaleByZero, ScaleWithZeros, Square};

pub const SORTS: [Sort; 7] = [
    Add,
    Double,
    Multiply,
    Square,
    Scale,
    ScaleWithZeros,
    ScaleByZero,
];

impl Sort {
    pub fn text(self) -> &'static str {
        match self {
            Add => "a sum",
            Double => "a sum of a bundle with itself",
            Multiply => "a product",
            Square => "a square",
            Scale => "a multiple",
            ScaleWithZeros => "a multiple by 0 modulo some primes",
            ScaleByZero => "a multiple by 0",
        }
    }

    /// The call that writes it.
    pub fn name(self) -> Name {
        match self {
            Add | Double => Name::Add,
            Multiply | Square => Name::Multiply,
            Scale | ScaleWithZeros | ScaleByZero => Name::Scale,
        }
    }

    /// Whether it takes two bundles that are not the same.
    fn takes_two(self) -> bool {
        matches!(self, Add | Multiply)
    }
}

/// What a bundle is made of: inputs, the gates of a part, or other gates.
#[derive(Clone, Copy, Debug, PartialEq, Eq)]
pub enum Source {
    Inputs,
    Part,
    Gates,
}

/// A bundle of a circuit, and the integer that it carries.
#[derive(Clone, Copy, Debug)]
pub struct Held {
    pub bundle: Bundle,
    pub integer: u128,
    pub source: Source,
}

#[derive(Clone, Copy, Debug)]
pub struct Part {
    pub sort: Sort,
    /// The wires that it makes.
    pub made: Bundle,
    pub a: Held,
    pub b: Held,
    pub constant: u64,
}

impl Part {
    /// A part on any of the bundles that have as many primes as it makes wires, or more: the first
    /// ones of a bundle are a bundle too. The one made last is as likely as all others together.
    pub fn drawn(sort: Sort, made: Bundle, held: &[Held], rng: &mut Rng) -> Self {
        let mut wide: Vec<Held> = held.to_vec();
        wide.retain(|held| held.bundle.r >= made.r);
        let last = wide.len() - 1;
        let a = match rng.once_in(2) {
            true => last,
            false => rng.below(wide.len()),
        };
        let b = match sort.takes_two() {
            true => (a + rng.between(1, last)) % wide.len(),
            false => a,
        };
        Part {
            sort,
            made,
            a: wide[a],
            b: wide[b],
            constant: constant(sort, made.r, rng),
        }
    }

    /// Whether it works on a bundle that is made of these.
    pub fn is_on(&self, source: Source) -> bool {
        self.a.source == source || self.b.source == source
    }

    /// The call that writes it, into a buffer that holds anything.
    pub fn call(&self, rng: &mut Rng) -> Call {
        // No part is longer than this one.
        let longest = words_of_scale(10, 0);
        let length = 4 * longest + rng.below(9);
        Call {
            name: self.sort.name(),
            r: self.made.r,
            integer: self.constant,
            first: self.made.first,
            a: self.a.bundle.first,
            b: self.b.bundle.first,
            buffer: rng.bytes(length),
            before: rng.next_u64(),
            nulls: false,
        }
    }

    /// The rows of its gates: for each prime p none of a sum or a scale, 2p of a product, and p of a
    /// projection to 0 or of a square, but of a bit's square none.
    pub fn rows(&self) -> u32 {
        let of_gate = |p: u32| match self.sort {
            Add | Double => 0,
            Multiply => 2 * p,
            Square if p == 2 => 0,
            Scale | ScaleWithZeros | ScaleByZero if !self.constant.is_multiple_of(p.into()) => 0,
            _ => p,
        };
        primes_of(self.made.r).into_iter().map(of_gate).sum()
    }

    /// The integer result modulo the product.
    pub fn integer(&self) -> u128 {
        let (a, b) = (self.a.integer, self.b.integer);
        let whole = match self.sort.name() {
            Name::Add => a + b,
            Name::Multiply => a * b,
            _ => a * u128::from(self.constant),
        };
        whole % u128::from(product_of(self.made.r))
    }
}

/// A constant that is 0 modulo none of the primes, some or all of them.
fn constant(sort: Sort, r: u32, rng: &mut Rng) -> u64 {
    let zeros = match sort {
        ScaleByZero => vec![true; r as usize],
        ScaleWithZeros => some_of(r as usize, rng),
        _ => vec![false; r as usize],
    };
    integer_with_zeros(&zeros, rng)
}

/// At least one of so many, and not all of them.
fn some_of(count: usize, rng: &mut Rng) -> Vec<bool> {
    let mut some: Vec<bool> = (0..count).map(|_| rng.once_in(2)).collect();
    let one = rng.below(count);
    some[one] = true;
    some[(one + rng.between(1, count - 1)) % count] = false;
    some
}

//! Calls with chosen faults.

use super::call::{Call, Name};
use compare::circuit::MOST_WIRES;
use compare::generate::bundle_numbers::{
    edge_bundles, edge_firsts, integer, integer_with_zeros, primes_of, residues, words_of_scale,
    wrong_counts, wrong_integer,
};
use compare::rng::Rng;

/// A call that is good but for these faults, each named by its refusal.
pub fn faulty(name: Name, r: u32, faults: &[u32], rng: &mut Rng) -> Call {
    Maker {
        name,
        r,
        faults,
        rng,
    }
    .call()
}

struct Maker<'m> {
    name: Name,
    /// The number of primes, or what it would be if it were not wrong itself.
    r: u32,
    faults: &'m [u32],
    rng: &'m mut Rng,
}

impl Maker<'_> {
    fn call(&mut self) -> Call {
        let integer = self.integer();
        let (first, a, b) = self.wires();
        let r = if self.has(23) {
            self.rng.pick(&wrong_counts(self.r))
        } else {
            self.r
        };
        let buffer = match self.name {
            Name::Split => {
                let length = self.residues_length(r);
                self.rng.bytes(length)
            }
            Name::Join => self.residues(r),
            _ => {
                let length = self.file_length(integer);
                self.rng.bytes(length)
            }
        };
        Call {
            name: self.name,
            r,
            integer,
            first,
            a,
            b,
            buffer,
            before: self.rng.next_u64(),
            nulls: self.rng.once_in(2),
        }
    }

    fn has(&self, fault: u32) -> bool {
        self.faults.contains(&fault)
    }

    fn integer(&mut self) -> u64 {
        let (r, rng) = (self.r, &mut *self.rng);
        if self.faults.contains(&24) {
            return wrong_integer(r, rng);
        }
        match self.name {
            Name::Scale => constant(r, rng),
            _ => integer(r, rng),
        }
    }

    /// How many residues are lent. Where the number of primes is wrong, as many as it says if it
    /// says a small number, or as many as would be right.
    fn residues_length(&mut self, r: u32) -> usize {
        let exact = match r {
            0..16 if self.rng.once_in(2) => r as usize,
            _ => self.r as usize,
        };
        if !self.has(14) {
            return exact;
        }
        let lengths = [0, 1, exact.saturating_sub(1), exact + 1, exact + 256];
        let mut lengths: Vec<usize> = (2..=11).chain(lengths).collect();
        lengths.retain(|length| *length != exact);
        self.rng.pick(&lengths)
    }

    /// Residues in a buffer that may have a wrong length. One or several are too large, if that is
    /// asked for: of the primes that there are, so that a length of 0 leaves none.
    fn residues(&mut self, r: u32) -> Vec<u8> {
        let mut bytes = residues(self.r, self.rng);
        let length = self.residues_length(r);
        bytes.resize(length, 0);
        let primes = primes_of(self.r);
        let judged = primes.len().min(length);
        if self.has(24) && judged > 0 {
            for _ in 0..self.rng.pick(&[1, 1, 2, 5]) {
                let at = self.rng.below(judged);
                let p = primes[at] as u8;
                let any = self.rng.between(p.into(), 255) as u8;
                bytes[at] = self.rng.pick(&[p, p + 1, 255, any, 128 | bytes[at]]);
            }
        }
        bytes
    }

    /// The part's first wire, and those of its bundles. A scale has one bundle, so that its own
    /// must be wrong where one is.
    fn wires(&mut self) -> (u32, u32, u32) {
        let first = self.first();
        let wrong = match (self.has(5), self.name) {
            (false, _) => [false, false],
            (true, Name::Scale) => [true, false],
            (true, _) => self.rng.pick(&[[true, false], [false, true], [true, true]]),
        };
        let [a, b] = wrong.map(|wrong| self.bundle(first, wrong));
        // As often as not a sum or product of two bundles is one of a bundle with itself.
        if wrong[0] == wrong[1] && self.rng.once_in(2) {
            return (first, a, a);
        }
        (first, a, b)
    }

    /// The part's first wire: with room for the part, and for a bundle before it, or not.
    fn first(&mut self) -> u32 {
        let r = self.r;
        let last = MOST_WIRES as u32 - r;
        let any = if self.has(8) {
            let high = u64::from(u32::MAX - last);
            last + 1 + (self.rng.next_u64() % high) as u32
        } else {
            self.rng.below(last as usize + 1) as u32
        };
        let mut firsts = edge_firsts(r);
        firsts.extend([any; 10]);
        // A bundle can be too high for any part, but not low enough for the very first wires.
        let lowest = if self.has(5) { 0 } else { r };
        firsts.retain(|first| *first >= lowest && (*first > last) == self.has(8));
        self.rng.pick(&firsts)
    }

    /// The first wire of a bundle, for a part that starts there: wholly below it, or not.
    fn bundle(&mut self, first: u32, wrong: bool) -> u32 {
        let is_wrong = |start: u32| u64::from(start) + u64::from(self.r) > u64::from(first);
        let (low, high) = match first.checked_sub(self.r) {
            Some(last) if wrong => (last + 1, u32::MAX),
            Some(last) => (0, last),
            None => (0, u32::MAX),
        };
        let any = low + (self.rng.next_u64() % (u64::from(high - low) + 1)) as u32;
        let mut starts = edge_bundles(self.r, first);
        starts.extend([any; 6]);
        // Where the part starts too low for any bundle, there is no good one.
        starts.retain(|start| is_wrong(*start) == wrong || first < self.r);
        self.rng.pick(&starts)
    }

    /// A buffer for the words, or one that is too short.
    fn file_length(&mut self, constant: u64) -> usize {
        let words = match self.name {
            Name::Scale => words_of_scale(self.r, constant),
            _ => self.r as usize,
        };
        let exact = 4 * words;
        let lengths = if self.has(22) {
            [exact - 1, exact - 4, 0, self.rng.below(exact)]
        } else {
            let longer = exact + self.rng.between(1, 40);
            [exact, exact, exact + 1, longer]
        };
        self.rng.pick(&lengths)
    }
}

/// A constant: 0 modulo all primes, none, one or any of them.
fn constant(r: u32, rng: &mut Rng) -> u64 {
    let one = rng.below(r as usize);
    let zeros = match rng.below(6) {
        0 => return integer(r, rng),
        1 => vec![true; r as usize],
        2 => vec![false; r as usize],
        3 => (0..r as usize).map(|at| at == one).collect(),
        _ => (0..r).map(|_| rng.once_in(2)).collect::<Vec<bool>>(),
    };
    integer_with_zeros(&zeros, rng)
}

//! Generators of accepted circuits.

use super::named::named;
use crate::circuit::{MOST_OUTPUTS, MOST_WIRES, is_modulus};
use crate::rng::Rng;
use crate::word::{self, END, HEAD};

/// The words of a circuit in the making, and the moduli of the wires made so far.
pub struct Builder<'r> {
    rng: &'r mut Rng,
    words: Vec<u32>,
    moduli: Vec<u32>,
    /// The moduli that new inputs and projections choose from: few, so that gates find partners.
    palette: Vec<u32>,
}

/// An accepted circuit, mostly small.
pub fn accepted(rng: &mut Rng) -> Vec<u32> {
    let (inputs, gates, outputs) = match rng.below(20) {
        0 => (rng.between(1, 20), rng.between(10, 60), rng.between(1, 20)),
        1 => (rng.between(1, 9), 0, rng.between(1, 9)),
        _ => (rng.between(1, 4), rng.between(0, 8), rng.between(1, 4)),
    };
    let palette = palette(rng);
    let mut builder = Builder::new(rng, palette);
    builder.inputs(inputs);
    builder.gates(gates);
    builder.outputs(outputs);
    builder.end()
}

/// A circuit that exhausts one limit and is still accepted.
pub fn at_limit(rng: &mut Rng) -> Vec<u32> {
    match rng.below(6) {
        0 => full_of_wires(rng, &mut |builder| builder.outputs(1)),
        1 => full_of_wires(rng, &mut |builder| builder.outputs(MOST_OUTPUTS)),
        2 => full_of_outputs(rng),
        3 => every_modulus(rng),
        4 => largest_modulus(rng),
        _ => large_tables(rng),
    }
}

/// Exactly as many wires as there may be, then whatever the caller adds, then the end.
pub fn full_of_wires(rng: &mut Rng, rest: &mut dyn FnMut(&mut Builder)) -> Vec<u32> {
    // Without gates, with some, and with gates alone but for one input.
    let inputs = rng.pick(&[MOST_WIRES, MOST_WIRES - 20, 2]);
    let mut builder = Builder::new(rng, vec![2, 3]);
    builder.inputs(inputs);
    builder.gates(MOST_WIRES - inputs);
    rest(&mut builder);
    builder.end()
}

/// Exactly as many outputs as there may be.
pub fn full_of_outputs(rng: &mut Rng) -> Vec<u32> {
    let palette = palette(rng);
    let mut builder = Builder::new(rng, palette);
    builder.inputs(2);
    builder.gates(2);
    builder.outputs(MOST_OUTPUTS);
    builder.end()
}

/// An input of each of the 54 moduli and a gate on most of them.
fn every_modulus(rng: &mut Rng) -> Vec<u32> {
    let primes = all_moduli();
    let mut builder = Builder::new(rng, primes.clone());
    for modulus in &primes {
        builder.input(*modulus);
    }
    for wire in 0..primes.len() as u32 {
        builder.gate_on(wire);
    }
    builder.outputs(3);
    builder.end()
}

/// For each of the 54 moduli, of two inputs: the square of one, their product, the square of their
/// sum, the square of the first square, and the product of the one with its square.
pub fn every_square() -> Vec<u32> {
    let primes = all_moduli();
    let inputs = primes.iter().flat_map(|p| [word::input(0, *p); 2]);
    let mut words: Vec<u32> = [HEAD].into_iter().chain(inputs).collect();
    let gates = 2 * primes.len() as u32;
    for index in 0..primes.len() as u32 {
        let (a, b) = (2 * index, 2 * index + 1);
        // The first of this modulus's six gates.
        let square = gates + 6 * index;
        let sum = square + 2;
        words.extend([word::multiply(a, a), word::multiply(a, b), word::add(a, b)]);
        words.extend([sum, square].map(|wire| word::multiply(wire, wire)));
        words.push(word::multiply(a, square));
    }
    words.extend([word::output(gates), END]);
    words
}

/// Every gate kind at the largest modulus, with the largest constant and images.
fn largest_modulus(rng: &mut Rng) -> Vec<u32> {
    let mut builder = Builder::new(rng, vec![251]);
    builder.input(251);
    builder.input(2);
    builder.push_wire(word::scale(250, 0), 251);
    builder.project(0, 251);
    builder.project(1, 251);
    builder.push_wire(word::multiply(2, 3), 251);
    builder.push_wire(word::select(1), 251);
    builder.words.push(word::branches(5, 2));
    builder.push_wire(word::multiply(6, 6), 251);
    builder.gates(4);
    builder.outputs(5);
    builder.end()
}

/// Many long tables one after another.
fn large_tables(rng: &mut Rng) -> Vec<u32> {
    // Only a few files reach the greatest size, for the sake of the run's time.
    let tables = if rng.once_in(20) { 1000 } else { 20 };
    let mut builder = Builder::new(rng, vec![251, 241]);
    builder.inputs(3);
    for _ in 0..tables {
        let wire = builder.wire();
        let modulus = builder.modulus();
        builder.project(wire, modulus);
    }
    builder.outputs(4);
    builder.end()
}

/// All 54 moduli, ascending.
pub fn all_moduli() -> Vec<u32> {
    (0..=255)
        .filter(|p| is_modulus(*p))
        .map(u32::from)
        .collect()
}

/// One to three moduli, mostly small ones, and mostly with 2 among them.
pub(super) fn palette(rng: &mut Rng) -> Vec<u32> {
    let small = [2, 3, 5, 7, 11, 13];
    let large = [17, 31, 101, 127, 131, 239, 241, 251];
    let mut palette = Vec::new();
    if !rng.once_in(4) {
        palette.push(2);
    }
    for _ in 0..rng.between(1, 2) {
        let modulus = match rng.below(12) {
            0 => rng.pick(&large),
            1 => rng.pick(&all_moduli()),
            _ => rng.pick(&small),
        };
        palette.push(modulus);
    }
    palette
}

impl<'r> Builder<'r> {
    pub(super) fn new(rng: &'r mut Rng, palette: Vec<u32>) -> Self {
        Builder {
            rng,
            words: vec![HEAD],
            moduli: Vec::new(),
            palette,
        }
    }

    pub fn rng(&mut self) -> &mut Rng {
        self.rng
    }

    pub fn moduli(&self) -> &[u32] {
        &self.moduli
    }

    /// The words so far.
    pub(super) fn words(&self) -> &[u32] {
        &self.words
    }

    /// Adds a word that makes no wire.
    pub fn push(&mut self, word: u32) {
        self.words.push(word);
    }

    pub(super) fn push_wire(&mut self, word: u32, modulus: u32) {
        self.words.push(word);
        self.moduli.push(modulus);
    }

    /// Adds the words of gates that make wires of these moduli.
    pub(super) fn append(&mut self, words: &[u32], moduli: &[u32]) {
        self.words.extend(words);
        self.moduli.extend(moduli);
    }

    pub(super) fn modulus(&mut self) -> u32 {
        self.rng.pick(&self.palette)
    }

    /// A wire made already; the latest ones are likely, so that circuits grow deep.
    fn wire(&mut self) -> u32 {
        let made = self.moduli.len();
        let wire = if self.rng.once_in(2) {
            made - 1 - self.rng.below(made.min(3))
        } else {
            self.rng.below(made)
        };
        wire as u32
    }

    /// A wire of this modulus, if there is one.
    fn wire_of(&mut self, modulus: u32) -> Option<u32> {
        let made = self.moduli.len();
        let start = self.rng.below(made);
        (start..made)
            .chain(0..start)
            .find(|wire| self.moduli[*wire] == modulus)
            .map(|wire| wire as u32)
    }

    fn inputs(&mut self, count: usize) {
        for _ in 0..count {
            let modulus = self.modulus();
            self.input(modulus);
        }
    }

    fn input(&mut self, modulus: u32) {
        // Few parties are likely, so that calls with a small n are accepted too.
        let parties = self.rng.pick(&[2, 2, 3, 8]);
        let owner = self.rng.below(parties) as u32;
        self.push_wire(word::input(owner, modulus), modulus);
    }

    pub(super) fn gates(&mut self, count: usize) {
        for _ in 0..count {
            let wire = self.wire();
            self.gate_on(wire);
        }
    }

    fn gate_on(&mut self, a: u32) {
        match self.rng.below(8) {
            0 => self.two_wired(a, word::add),
            1 => self.two_wired(a, word::multiply),
            // Squares are garbled in their own way, and a bit's square in another, so they are at least
            // as likely as other products.
            2 => self.square(a),
            3 => {
                let bit = self.wire_of(2);
                self.square(bit.unwrap_or(a));
            }
            4 => self.scale(a),
            5 => {
                let modulus = self.modulus();
                // Long tables would crowd out everything else.
                if self.moduli[a as usize] < 20 || self.rng.once_in(4) {
                    self.project(a, modulus);
                } else {
                    self.scale(a);
                }
            }
            _ => self.select(a),
        }
    }

    /// A gate that makes a wire of this modulus: of a wire that has it too, or a projection.
    pub(super) fn gate_of(&mut self, modulus: u32) {
        let from = self.wire();
        // Long tables would crowd out everything else.
        let is_short = self.moduli[from as usize] < 32;
        match self.wire_of(modulus) {
            Some(a) if !is_short || self.rng.once_in(2) => match self.rng.below(5) {
                0 => self.two_wired(a, word::add),
                1 => self.two_wired(a, word::multiply),
                2 => self.square(a),
                3 => self.scale(a),
                _ => self.select(a),
            },
            _ => self.project(from, modulus),
        }
    }

    /// A wire to go with `a`: of the same modulus, now and then `a` itself.
    fn partner(&mut self, a: u32) -> u32 {
        if self.rng.once_in(6) {
            return a;
        }
        let modulus = self.moduli[a as usize];
        self.wire_of(modulus).unwrap_or(a)
    }

    fn two_wired(&mut self, a: u32, write: fn(u32, u32) -> u32) {
        let b = self.partner(a);
        let modulus = self.moduli[a as usize];
        let word = if self.rng.once_in(2) {
            write(a, b)
        } else {
            write(b, a)
        };
        self.push_wire(word, modulus);
    }

    fn square(&mut self, a: u32) {
        self.push_wire(word::multiply(a, a), self.moduli[a as usize]);
    }

    fn scale(&mut self, a: u32) {
        let modulus = self.moduli[a as usize];
        let constant = below_or_last(self.rng, modulus).max(1);
        self.push_wire(word::scale(constant, a), modulus);
    }

    fn project(&mut self, a: u32, modulus: u32) {
        let length = self.moduli[a as usize];
        self.push_wire(word::project(modulus, a), modulus);
        for _ in 0..length {
            let image = below_or_last(self.rng, modulus);
            self.words.push(word::entry(image));
        }
    }

    /// A select between `a` and a partner, or a sum where there is no wire of modulus 2.
    fn select(&mut self, a: u32) {
        let modulus = self.moduli[a as usize];
        let bit = if modulus == 2 && self.rng.once_in(4) {
            Some(a)
        } else {
            self.wire_of(2)
        };
        let Some(bit) = bit else {
            return self.two_wired(a, word::add);
        };
        let b = self.partner(a);
        self.push_wire(word::select(bit), modulus);
        self.words.push(word::branches(a, b));
    }

    pub fn outputs(&mut self, count: usize) {
        for _ in 0..count {
            // Few seats are likely, as few parties are.
            let seats = self.rng.pick(&[2, 2, 3, 8]);
            self.output(seats);
        }
    }

    /// An output of any wire, for any of the first so many seats.
    pub(super) fn output(&mut self, seats: u32) {
        let wire = self.wire();
        let named = named(seats, self.rng);
        self.words.push(word::named_output(named.into(), wire));
    }

    pub(super) fn end(mut self) -> Vec<u32> {
        self.words.push(END);
        self.words
    }
}

/// A number below the bound, often the last one.
fn below_or_last(rng: &mut Rng, bound: u32) -> u32 {
    if rng.once_in(5) {
        bound - 1
    } else {
        rng.below(bound as usize) as u32
    }
}

#[cfg(test)]
mod tests {
    use super::*;
    use crate::circuit::{Circuit, Gate, Wire, read};

    #[test]
    fn good_circuits_are_accepted() {
        let mut rng = Rng::new(1);
        for _ in 0..2000 {
            let words = accepted(&mut rng);
            assert!(read(&word::file(&words)).is_ok(), "{words:08X?}");
        }
        for _ in 0..200 {
            let words = at_limit(&mut rng);
            assert!(read(&word::file(&words)).is_ok(), "{words:08X?}");
        }
    }

    #[test]
    fn random_circuits_mix_squares_with_other_gates() {
        let mut rng = Rng::new(1);
        let mut mixed = 0;
        for _ in 0..1000 {
            let file = word::file(&accepted(&mut rng));
            let wires = read(&file).expect("accepted").wires;
            let square = wires.iter().any(Wire::is_square);
            let product = wires
                .iter()
                .any(|wire| wire.kind() == 5 && !wire.is_square());
            let other = wires.iter().any(|wire| matches!(wire.kind(), 6 | 8));
            mixed += u32::from(square && product && other);
        }
        assert!(mixed > 50, "{mixed}");
    }

    /// Bits times themselves at all, as outputs, of copies, and beside squares of other moduli.
    #[test]
    fn random_circuits_have_copies() {
        let mut rng = Rng::new(1);
        let mut counts = [0; 4];
        for _ in 0..1000 {
            let file = word::file(&accepted(&mut rng));
            let Circuit { wires, outputs, .. } = read(&file).expect("accepted");
            let is_copy = |wire: u16| wires[usize::from(wire)].is_copy();
            let of_copy = |wire: &Wire| match wire.gate {
                Gate::Multiply { a, .. } => wire.is_copy() && is_copy(a),
                _ => false,
            };
            let copy = wires.iter().any(Wire::is_copy);
            let square = |wire: &Wire| wire.is_square() && !wire.is_copy();
            let is = [
                copy,
                outputs.iter().any(|output| is_copy(output.wire)),
                wires.iter().any(of_copy),
                copy && wires.iter().any(square),
            ];
            for (count, is) in counts.iter_mut().zip(is) {
                *count += u32::from(is);
            }
        }
        let mut enough = counts.iter().zip([250, 100, 50, 50]);
        assert!(enough.all(|(count, due)| *count > due), "{counts:?}");
    }

    #[test]
    fn every_modulus_has_its_squares() {
        let file = word::file(&every_square());
        let circuit = read(&file).expect("accepted");
        let squares = circuit.wires.iter().filter(|wire| wire.is_square());
        let moduli: Vec<u32> = squares.map(|wire| wire.modulus.into()).collect();
        let due: Vec<u32> = all_moduli().into_iter().flat_map(|p| [p; 3]).collect();
        assert_eq!(moduli, due);
        // Of each prime p two products and three squares, 4p + 3p, but for those of 2, which have no
        // rows; the primes add up to 6,081.
        assert_eq!(circuit.counts().rows, 7 * 6081 - 3 * 2);
    }
}

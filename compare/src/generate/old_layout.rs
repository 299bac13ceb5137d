//! What was lent when a wire times itself had more rows and a longer record than now. Whoever still
//! lends such has the wrong lengths.

use super::settings::below;
use crate::circuit::{Circuit, Wire};
use crate::contribution::length;
use crate::rng::Rng;

/// The layouts of old.
#[derive(Clone, Copy, Debug, PartialEq, Eq)]
pub enum Layout {
    /// From before squares were garbled as projections: a wire times itself, a bit too, had the rows
    /// and the record of any other product.
    BeforeSquares,
    /// From before a bit times itself was a copy: it had the rows and the record of a projection, as
    /// the other squares have.
    BeforeCopies,
}

use Layout::{BeforeCopies, BeforeSquares};

pub const LAYOUTS: [Layout; 2] = [BeforeSquares, BeforeCopies];

impl Layout {
    pub fn text(self) -> &'static str {
        match self {
            BeforeSquares => "from before squares",
            BeforeCopies => "from before copies",
        }
    }

    /// Whether a circuit has what this layout is named by: a square of another modulus than 2, or a
    /// bit times itself.
    pub fn is_another(self, circuit: &Circuit) -> bool {
        let mut wires = circuit.wires.iter();
        match self {
            BeforeSquares => wires.any(|wire| wire.is_square() && !wire.is_copy()),
            BeforeCopies => wires.any(Wire::is_copy),
        }
    }

    /// How many rows a wire had.
    fn rows(self, wire: &Wire) -> usize {
        match self {
            BeforeSquares if wire.is_square() => 2 * usize::from(wire.modulus),
            BeforeCopies if wire.is_copy() => 2,
            _ => wire.rows() as usize,
        }
    }

    /// How many pairs of a key and a share its record had.
    fn records(self, wire: &Wire) -> usize {
        match self {
            BeforeSquares if wire.is_square() => 2,
            BeforeCopies if wire.is_copy() => 1,
            _ => wire.records() as usize,
        }
    }

    /// How many rows a circuit had.
    pub fn total_rows(self, circuit: &Circuit) -> usize {
        circuit.wires.iter().map(|wire| self.rows(wire)).sum()
    }

    /// One or several contributions in this layout.
    pub fn contributions(
        self,
        circuit: &Circuit,
        k: usize,
        bytes: &[u8],
        rng: &mut Rng,
    ) -> Vec<u8> {
        let parties = bytes.chunks(length(circuit, k));
        let mut widened = |own| self.widened(circuit, k, own, rng);
        parties.flat_map(&mut widened).collect()
    }

    /// A contribution with other keys and shares drawn where a record had more of them: after the keys
    /// and after the shares that it has now. All other bytes are the same, so that nothing but the
    /// length is wrong.
    fn widened(self, circuit: &Circuit, k: usize, own: &[u8], rng: &mut Rng) -> Vec<u8> {
        let (offsets, mut rest) = own.split_at(k * circuit.moduli().len());
        let mut wide = offsets.to_vec();
        for wire in &circuit.wires {
            let now = wire.records() as usize;
            let (record, after) = rest.split_at((k + 1) * now);
            rest = after;
            let more = self.records(wire) - now;
            let drawn = below(&vec![wire.modulus; (k + 1) * more], rng);
            let (keys, shares) = record.split_at(k * now);
            let (more_keys, more_shares) = drawn.split_at(k * more);
            wide.extend([keys, more_keys, shares, more_shares].concat());
        }
        wide
    }
}

#[cfg(test)]
mod tests {
    use super::*;
    use crate::circuit::read;
    use crate::word::{self, END, HEAD};

    /// Two wires of moduli 5 and 2, a square, a product, and a bit times itself.
    fn file() -> Vec<u8> {
        let words = [
            HEAD,
            word::input(0, 5),
            word::input(1, 2),
            word::multiply(0, 0),
            word::multiply(0, 2),
            word::multiply(1, 1),
            word::output(4),
            END,
        ];
        word::file(&words)
    }

    /// At key length 2: offsets; the inputs; the square; the product; nothing of the copy. Two moduli,
    /// and one key each but for two of the product: 2·2 + 3·(2 + 1 + 2).
    const OWN: [u8; 19] = [1, 0, 2, 1, 3, 4, 2, 1, 0, 1, 4, 3, 2, 0, 1, 2, 3, 4, 1];

    /// Two parties' contributions in a layout, of so many bytes each, that of the bit drawn last.
    fn both(layout: Layout, each: usize) -> Vec<Vec<u8>> {
        let file = file();
        let circuit = read(&file).unwrap();
        assert_eq!(length(&circuit, 2), OWN.len());
        assert!(layout.is_another(&circuit));
        let wide = layout.contributions(&circuit, 2, &OWN.repeat(2), &mut Rng::new(1));
        assert_eq!(wide.len(), 2 * each);
        wide.chunks(each).map(<[u8]>::to_vec).collect()
    }

    /// Two keys of each product: 2·2 + 3·(2 + 2·3).
    #[test]
    fn before_squares_each_had_two_keys_and_shares() {
        for old in both(BeforeSquares, 28) {
            assert_eq!(old[..12], OWN[..12]);
            assert_eq!(old[14], OWN[12]);
            assert_eq!(old[16..22], OWN[13..19]);
            assert!([12, 13, 15].iter().all(|at| old[*at] < 5));
            assert!(old[22..].iter().all(|byte| *byte < 2));
        }
        // 5 + 10 + 0 rows now, 10 + 10 + 4 then.
        let file = file();
        let circuit = read(&file).unwrap();
        assert_eq!(circuit.counts().rows, 15);
        assert_eq!(BeforeSquares.total_rows(&circuit), 24);
    }

    /// A key and a share of the bit's square more, K + 1 bytes, and its two rows.
    #[test]
    fn before_copies_a_bit_times_itself_had_a_key_and_a_share() {
        for old in both(BeforeCopies, 22) {
            assert_eq!(old[..19], OWN);
            assert!(old[19..].iter().all(|byte| *byte < 2));
        }
        let file = file();
        assert_eq!(BeforeCopies.total_rows(&read(&file).unwrap()), 17);
    }

    /// A bit times itself alone, a square of modulus 3 alone, and neither.
    #[test]
    fn a_layout_is_another_where_the_circuit_has_what_changed() {
        let is_another = |words: [u32; 5]| {
            let file = word::file(&words);
            let circuit = read(&file).unwrap();
            LAYOUTS.map(|layout| layout.is_another(&circuit))
        };
        let square = |p| {
            [
                HEAD,
                word::input(0, p),
                word::multiply(0, 0),
                word::output(1),
                END,
            ]
        };
        assert_eq!(is_another(square(2)), [false, true]);
        assert_eq!(is_another(square(3)), [true, false]);
        let sum = [
            HEAD,
            word::input(0, 2),
            word::add(0, 0),
            word::output(1),
            END,
        ];
        assert_eq!(is_another(sum), [false, false]);
    }
}

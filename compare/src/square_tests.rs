//! Squares: rows, records, lengths and a whole round, worked out by hand from the specification.

use crate::circuit::{Counts, read};
use crate::contribution::{Contribution, length};
use crate::generate::circuits::all_moduli;
use crate::generate::old_layout::Layout::BeforeSquares;
use crate::generate::settings::Setting;
use crate::pad::Row;
use crate::rng::Rng;
use crate::round_tests::play;
use crate::word::{self, *};

/// The round number of the example below.
const ROUND: u32 = 0x0403_0201;

/// Three times the sum of three squares, less the square of the sum: nine times the variance.
const VARIANCE: [u32; 17] = [
    HEAD,
    input(0, 7),
    input(1, 7),
    input(1, 7),
    add(0, 1),
    add(3, 2), // wire 4: the sum
    multiply(0, 0),
    multiply(1, 1),
    multiply(2, 2),
    add(5, 6),
    add(8, 7), // wire 9: the sum of the squares
    scale(3, 9),
    multiply(4, 4),
    scale(6, 11),
    add(10, 12),
    output(13),
    END,
];

/// There are 3 inputs and 4 squares of modulus 7. Each square has 7 rows, not 14, and one key in a
/// record, not two.
#[test]
fn counts_and_lengths_of_a_variance_circuit() {
    let file = word::file(&VARIANCE);
    let circuit = read(&file).unwrap();
    let expected = Counts {
        wires: 14,
        inputs: 3,
        outputs: 1,
        rows: 4 * 7,
        moduli: 1,
        records: 3 + 4,
    };
    assert_eq!(circuit.counts(), expected);
    assert_eq!(BeforeSquares.total_rows(&circuit), 4 * 14);
    // K·Q + (K + 1)·(I + P), the squares in P: 2·1 + 3·(3 + 4) = 23.
    assert_eq!(length(&circuit, 2), 23);
    // With the squares in M it was 2·1 + 3·(3 + 2·4) = 35.
    let old = BeforeSquares.contributions(&circuit, 2, &[1; 23], &mut Rng::new(1));
    assert_eq!(old.len(), 35);
    // At the largest key length 128 + 129·7 = 1031.
    assert_eq!(length(&circuit, 128), 1031);
}

/// Of 1, 2 and 3: the sum is 6, the squares add up to 14, and 3·14 − 36 is 6.
#[test]
fn a_variance_is_decoded() {
    let numbers = (2, 3, ROUND, 0);
    let mut setting = Setting::new(word::file(&VARIANCE), numbers, &mut Rng::new(1));
    setting.values = vec![1, 2, 3];
    let played = play(&setting);
    // 28 rows of two keys of three bytes.
    assert_eq!(played.rows.len(), 28 * 2 * 3);
    assert_eq!(played.decoded, [6]);
}

/// A square's record is a projection's, a zero key and a mask share; another product's beside it has
/// a first-part key and share too.
#[test]
fn records_of_a_square_and_of_another_product() {
    let words = [
        HEAD,
        input(0, 251),
        multiply(0, 0),
        multiply(0, 1),
        output(2),
        END,
    ];
    let file = word::file(&words);
    let circuit = read(&file).unwrap();
    // 2·1 + 3·(1 + 1 + 2).
    let bytes: Vec<u8> = (0..14).collect();
    assert_eq!(length(&circuit, 2), bytes.len());
    let own = Contribution::new(&circuit, 2, &bytes);
    assert_eq!(own.offset(251), [0, 1]);
    let expected: [(&[&[u8]], &[u8]); 3] = [
        (&[&[2, 3]], &[4]),
        (&[&[5, 6]], &[7]),
        (&[&[8, 9], &[10, 11]], &[12, 13]),
    ];
    for (wire, (keys, shares)) in expected.into_iter().enumerate() {
        let record = own.record(wire);
        assert_eq!((&record.keys[..], record.shares), (keys, shares));
    }
}

/// A wire of modulus 5 squared, by two parties with keys of one byte; value 3.
fn square_of_three() -> Setting {
    Setting {
        file: word::file(&[HEAD, input(0, 5), multiply(0, 0), output(1), END]),
        n: 2,
        k: 1,
        round: ROUND,
        account: 3,
        contributions: vec![
            2, 1, 0, 4, 2, // offset; zero key and mask share of the wire, and of its square
            3, 3, 4, 1, 1,
        ],
        values: vec![3],
    }
}

/// The wire's mask is 0 + 4 = 4, the square's 2 + 1 = 3. Row α hides k_z + ((α − 4)² + 3)·D:
///
/// | α | (α − 4)² | + 3 | to party 0: 4 + 2· | to party 1: 1 + 3· | senders' keys 1 + 2α, 3 + 3α |
/// |---|---|---|---|---|---|
/// | 0 | 1 | 4 | 2 | 3 | 1, 3 |
/// | 1 | 4 | 2 | 3 | 2 | 3, 1 |
/// | 2 | 4 | 2 | 3 | 2 | 0, 4 |
/// | 3 | 1 | 4 | 2 | 3 | 2, 2 |
/// | 4 | 0 | 3 | 0 | 0 | 4, 0 |
#[test]
fn rows_of_a_square() {
    let rows = play(&square_of_three()).rows;
    let messages = [[2, 3], [3, 2], [3, 2], [2, 3], [0, 0]];
    let senders: [[[u8; 1]; 2]; 5] = [[[1], [3]], [[3], [1]], [[0], [4]], [[2], [2]], [[4], [0]]];
    let row = Row {
        round: ROUND,
        modulus: 5,
        wire: 1,
        component: 0,
        receiving: 5,
    };
    let mut due = Vec::new();
    for (messages, keys) in messages.into_iter().zip(senders) {
        for (receiver, message) in messages.into_iter().enumerate() {
            due.push(((message + row.pads(receiver, &keys)[0]) % 5) as u8);
        }
    }
    assert_eq!(rows, due);
    // The same by another implementation: python, with the SHAKE256 of its hashlib.
    assert_eq!(rows, [0, 4, 1, 3, 4, 2, 0, 1, 1, 0]);
}

/// The external value is 3 + 4 = 2, so that row 2 is opened: the keys are 3 and 2. 4 + 2·2 is 3, so
/// the square's external value is 2, and 2 − 3 = 4 is 3·3 modulo 5.
#[test]
fn a_square_is_opened() {
    let played = play(&square_of_three());
    assert_eq!(played.wire_externals, [2, 2]);
    assert_eq!(played.wire_keys, [0, 4, 3, 2]);
    assert_eq!(played.output_masks, [3, 3]);
    assert_eq!(played.decoded, [4]);
}

/// The largest value at every modulus from 3 on: −1 squared is 1.
#[test]
fn squares_of_every_modulus_are_decoded() {
    let mut rng = Rng::new(7);
    for p in all_moduli().into_iter().skip(1) {
        let file = word::file(&[HEAD, input(0, p), multiply(0, 0), output(1), END]);
        let mut setting = Setting::new(file, (2, 1, ROUND, 3), &mut rng);
        setting.values = vec![p as u8 - 1];
        let played = play(&setting);
        assert_eq!(played.rows.len(), 2 * p as usize);
        assert_eq!(played.decoded, [1], "{p}");
    }
}

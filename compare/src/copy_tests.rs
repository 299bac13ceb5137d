//! A bit times itself, which is a copy: counts, lengths and whole rounds, worked out by hand from the
//! specification.

use crate::bundle;
use crate::circuit::{Counts, read};
use crate::contribution::{Contribution, length};
use crate::garble::{Written, garble, masks};
use crate::generate::old_layout::Layout::{BeforeCopies, BeforeSquares};
use crate::generate::settings::Setting;
use crate::inputs::input_keys;
use crate::meter::Meter;
use crate::open::{Given, open};
use crate::pair;
use crate::price_sheet::price_sheet;
use crate::rng::Rng;
use crate::round_tests::play;
use crate::word::{self, *};

const ROUND: u32 = 0x0403_0201;

/// An input of this modulus times itself, and nothing else.
fn square(p: u32) -> Vec<u32> {
    vec![HEAD, input(0, p), multiply(0, 0), output(1), END]
}

/// A copy of the first bit, the product of two bits, and a copy of that product.
const WITH_PRODUCT: [u32; 8] = [
    HEAD,
    input(0, 2),
    input(1, 2),
    multiply(0, 0),
    multiply(0, 1),
    multiply(3, 3),
    output(4),
    END,
];

/// The rows of a circuit, and the pairs of a key and a share in a contribution.
fn rows_and_records(words: &[u32]) -> (u32, u32) {
    let Counts { rows, records, .. } = read(&word::file(words)).expect("accepted").counts();
    (rows, records)
}

/// A copy has neither rows nor a record, a square of modulus 3 has 3 rows and one pair.
#[test]
fn a_copy_has_no_rows_and_no_record() {
    let expected = Counts {
        wires: 2,
        inputs: 1,
        outputs: 1,
        rows: 0,
        moduli: 1,
        records: 1,
    };
    assert_eq!(read(&word::file(&square(2))).unwrap().counts(), expected);
    // 4 rows of the product; one pair of each input and two of the product.
    assert_eq!(rows_and_records(&WITH_PRODUCT), (4, 1 + 1 + 2));
    assert_eq!(rows_and_records(&square(3)), (3, 1 + 1));
    // A copy of a copy of a copy.
    let chain = [HEAD, input(0, 2), multiply(0, 0), multiply(1, 1)];
    let chain = [&chain[..], &[multiply(2, 2), output(3), END]].concat();
    assert_eq!(rows_and_records(&chain), (0, 1));
}

/// They hold the same bit and are not the same wire, even where one is a copy of the other: 4 rows and
/// two keys.
#[test]
fn two_wires_of_one_bit_are_a_product() {
    let inputs = [HEAD, input(0, 2)];
    for equal in [multiply(0, 0), scale(1, 0)] {
        for product in [multiply(0, 1), multiply(1, 0)] {
            let words = [&inputs[..], &[equal, product, output(2), END]].concat();
            assert_eq!(rows_and_records(&words), (4, 1 + 2));
        }
    }
    // Two copies of one bit, and a copy of their product.
    let copies = [multiply(0, 0), multiply(0, 0)];
    let product = [multiply(1, 2), multiply(3, 3), output(4), END];
    let words = [&inputs[..], &copies, &product].concat();
    assert_eq!(rows_and_records(&words), (4, 1 + 2));
}

/// The rows fall from 2 to 0 and those of n parties by 2·n·K bytes, a contribution falls by K + 1; of
/// two copies twice that.
#[test]
fn rows_and_contributions_fall_by_what_the_gate_had() {
    for (words, copies) in [(&square(2)[..], 1), (&WITH_PRODUCT, 2)] {
        let file = word::file(words);
        let circuit = read(&file).unwrap();
        let rows = circuit.counts().rows as usize;
        assert_eq!(BeforeCopies.total_rows(&circuit) - rows, 2 * copies);
        assert_eq!(BeforeSquares.total_rows(&circuit) - rows, 4 * copies);
        for k in 1..=128 {
            let own = vec![0; length(&circuit, k)];
            let old = BeforeCopies.contributions(&circuit, k, &own, &mut Rng::new(1));
            assert_eq!(old.len() - own.len(), copies * (k + 1));
        }
    }
    // K·Q + (K + 1)·I is all that is left: 128 + 129.
    let file = word::file(&square(2));
    assert_eq!(length(&read(&file).unwrap(), 128), 257);
}

/// Still of kind 5, at no rows; the total has been 2 more for each.
#[test]
fn the_price_sheet_shows_no_rows() {
    let sheet = |words: &[u32]| {
        let lines: String = words.iter().map(|word| format!("{word:08X}\n")).collect();
        price_sheet(lines.as_bytes())
    };
    let head = "wire kind modulus rows\n";
    let alone = format!("{head}0 2 2 0\n1 5 2 0\ntotal 0\n");
    assert_eq!(sheet(&square(2)), alone);
    let lines = "0 2 2 0\n1 2 2 0\n2 5 2 0\n3 5 2 4\n4 5 2 0\ntotal 4\n";
    assert_eq!(sheet(&WITH_PRODUCT), format!("{head}{lines}"));
    let third = format!("{head}0 2 3 0\n1 5 3 3\ntotal 3\n");
    assert_eq!(sheet(&square(3)), third);
}

/// Two parties with keys of two bytes: a bit, a copy of it, a copy of that, the sum of both, the sum of
/// all three, and the product of the bit with the second copy.
fn chain(bit: u8) -> Setting {
    let mut words = vec![HEAD, input(1, 2), multiply(0, 0), multiply(1, 1)];
    words.extend([add(1, 2), add(3, 0), multiply(0, 2)]);
    words.extend((0..6).map(output));
    words.push(END);
    Setting {
        file: word::file(&words),
        n: 2,
        k: 2,
        round: ROUND,
        account: 3,
        contributions: vec![
            1, 0, 0, 1, 1, 1, 0, 0, 1, 1, 0, // offset; bit; product
            1, 1, 1, 1, 0, 0, 1, 1, 1, 0, 1,
        ],
        values: vec![bit],
    }
}

/// The zero keys of the bit are 0 1 and 1 1, the offsets 1 0 and 1 1, its mask is 1 + 0. So the keys
/// are 1 1 and 0 0 for the value 0, whose external value is 1, and the zero keys for the value 1. The
/// copies have the same. They add up to 0, and with the bit to the bit.
///
/// The product's zero keys are 1 0 and 0 1, its mask is 1 + 0. With the external value 1 its keys are 0 0
/// and 1 0.
#[test]
fn a_copy_has_the_keys_mask_and_external_value_of_its_bit() {
    for (bit, external, keys, product) in [
        (0, 1, [1, 1, 0, 0], [0, 0, 1, 0]),
        (1, 0, [0, 1, 1, 1], [1, 0, 0, 1]),
    ] {
        let played = play(&chain(bit));
        let due = [external, external, external, 0, external, external];
        assert_eq!(played.wire_externals, due);
        let due = [keys, keys, keys, [0; 4], keys, product].concat();
        assert_eq!(played.wire_keys, due);
        assert_eq!(played.output_masks, [1, 1, 1, 0, 1, 1].repeat(2));
        assert_eq!(played.figures, [[bit, bit, bit, 0, bit, bit]; 2]);
    }
}

/// The same of what garbling goes by: both copies have the bit's mask and zero keys, and no record.
#[test]
fn a_copy_has_the_zero_keys_of_its_bit() {
    let setting = chain(0);
    let circuit = read(&setting.file).unwrap();
    // 2·1 + 3·(1 + 2).
    assert_eq!(length(&circuit, 2), 11);
    let own = setting.contributions.chunks(11);
    let parties: Vec<Contribution> = own.map(|own| Contribution::new(&circuit, 2, own)).collect();
    assert_eq!(masks(&circuit, &parties), [1, 1, 1, 0, 1, 1]);
    for (party, bit) in parties.iter().zip([[0, 1], [1, 1]]) {
        assert_eq!(party.zero_keys(&circuit)[..3], [bit; 3]);
        for copy in [1, 2] {
            let record = party.record(copy);
            assert!(record.keys.is_empty() && record.shares.is_empty());
        }
    }
}

/// The rows of that product, which are the only ones. Its two wires have the same keys and the mask 1,
/// m′ is 0 + 1 and m″ 1 − 1. So component 0 is k′ for α = 0 and k′ + D for 1, and component 1 is k″ for
/// β = 0 and k″ − k_a − D for 1:
///
/// | | to party 0: k′ 0 1, k″ 1 1, k_a 0 1, D 1 0 | to party 1: k′ 1 1, k″ 1 0, k_a 1 1, D 1 1 |
/// |---|---|---|
/// | α = 0 | 0 1 | 1 1 |
/// | α = 1 | 1 1 | 0 0 |
/// | β = 0 | 1 1 | 1 0 |
/// | β = 1 | 0 0 | 1 0 |
///
/// The senders' keys are 0 1 and 1 1 for 0, 1 1 and 0 0 for 1. With their pads these are the rows by
/// another implementation: python, with the SHAKE256 of its hashlib.
#[test]
fn rows_of_the_product_of_a_bit_with_its_copy() {
    let rows = [[0, 0, 1, 0], [1, 0, 1, 1], [1, 0, 0, 1], [1, 1, 0, 0]];
    for bit in [0, 1] {
        assert_eq!(play(&chain(bit)).rows, rows.concat());
    }
}

/// Whatever was drawn, for all numbers of parties; nothing is charged, as there are no rows.
#[test]
fn copies_alone_are_decoded() {
    let mut rng = Rng::new(3);
    let mut words = vec![HEAD, input(0, 2), input(1, 2), multiply(0, 0)];
    words.extend([multiply(1, 1), multiply(3, 3), add(2, 4), multiply(5, 5)]);
    words.extend((2..7).map(output));
    words.push(END);
    for case in 0..64 {
        let (n, k) = (2 + case % 7, 1 + case * 2);
        let mut setting = Setting::new(word::file(&words), (n, k, case, 3), &mut rng);
        let (a, b) = (case as u8 % 2, case as u8 / 2 % 2);
        setting.values = vec![a, b];
        let played = play(&setting);
        assert!(played.rows.is_empty());
        assert_eq!(played.decoded, [a, b, b, a ^ b, a ^ b]);
    }
}

/// A bit and its copy, opened by party 0 of two at key length 1, with any round number: there is no row
/// to be wrong, so that nothing is refused. The other party's key is copied as it is lent.
#[test]
fn a_copy_opens_with_any_round_number() {
    let file = word::file(&square(2));
    for (round, other) in [(0, 0), (ROUND, 1), (u32::MAX, 0)] {
        let given = Given {
            contribution: &[1, 0, 1],
            externals: &[1],
            keys: &[1, other],
            rows: &[],
        };
        let (mut keys, mut externals) = ([7; 4], [7; 2]);
        let opened = open(&file, (2, 1, 0, round), &given, &mut keys, &mut externals);
        assert_eq!(opened, Ok(()));
        assert_eq!((keys, externals), ([1, other, 1, other], [1, 1]));
    }
}

/// What garbling, opening and input keys answer to a bit and its copy, at two parties and key length 2,
/// where each lends this contribution, and this many bytes of rows.
fn answers(own: &[u8], rows: usize) -> [Option<(u32, usize)>; 3] {
    let file = word::file(&square(2));
    let mut buffer = vec![0; rows];
    let written = Written {
        rows: &mut buffer,
        input_masks: &mut [7],
        output_masks: &mut [7; 2],
    };
    let (numbers, mut meter) = ((2, 2, ROUND, 0), Meter::default());
    let garbled = garble(&file, numbers, &own.repeat(2), written, &mut meter);
    let given = Given {
        contribution: own,
        externals: &[0],
        keys: &[0, 1, 0, 1],
        rows: &vec![0; rows],
    };
    let numbers = (2, 2, 0, ROUND);
    let opened = open(&file, numbers, &given, &mut [7; 8], &mut [7; 2]);
    let keyed = input_keys(&file, (2, 2, 0), own, &[0], &mut [7; 2]);
    [garbled, opened, keyed].map(|answer| answer.err().map(|found| (found.number, found.place)))
}

/// The key and share that the copy had, and its two rows of two keys of two bytes.
#[test]
fn the_old_layout_has_the_wrong_length() {
    let now = [1, 0, 0, 1, 1];
    let old = [1, 0, 0, 1, 1, 0, 1, 1];
    let wrong = Some((14, 0));
    assert_eq!(answers(&now, 0), [None; 3]);
    assert_eq!(answers(&old, 0), [wrong; 3]);
    assert_eq!(answers(&now, 2 * 2 * 2), [wrong, wrong, None]);
    assert_eq!(answers(&old, 2 * 2 * 2), [wrong; 3]);
}

/// A bundle by itself: p rows for each prime but 2. Before it was p for each, and for two parties it is 2p
/// − 2 for each as ever.
#[test]
fn rows_of_bundles_by_themselves() {
    let rows = [3, 8, 15, 26, 39, 56, 75, 98, 127];
    let before = [5, 10, 17, 28, 41, 58, 77, 100, 129];
    let for_two = [6, 14, 26, 46, 70, 102, 138, 182, 238];
    for r in 2..=10 {
        let mut part = vec![0; 4 * r];
        let wires = (r as u32, 0, 0);
        bundle::multiply(r as u32, wires, &mut part, &mut 0).unwrap();
        let primes = bundle::primes(r as u32).unwrap();
        let inputs = primes.into_iter().map(|p| input(0, p));
        let mut file = word::file(&[HEAD].into_iter().chain(inputs).collect::<Vec<u32>>());
        file.extend(part);
        file.extend(word::file(&[output(r as u32), END]));
        let circuit = read(&file).unwrap();
        assert_eq!(circuit.counts().rows, rows[r - 2]);
        assert_eq!(BeforeCopies.total_rows(&circuit), before[r - 2]);
        assert_eq!(pair::read(&file), Ok(for_two[r - 2]));
    }
}

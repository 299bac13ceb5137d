//! Whole rounds of this program alone, and the specification's examples in them.

use crate::circuit::{Circuit, read};
use crate::contribution::length;
use crate::decode::decode;
use crate::garble::{Written, garble};
use crate::generate::settings::{Setting, setting};
use crate::inputs::{externals, input_keys};
use crate::meter::Meter;
use crate::open::{Given, open};
use crate::pad::Row;
use crate::plain::plain;
use crate::rng::Rng;
use crate::word::{self, *};

/// What the calls of a round wrote, opening at party 0.
pub struct Played {
    pub rows: Vec<u8>,
    /// A sheet for each party.
    pub output_masks: Vec<u8>,
    externals: Vec<u8>,
    /// Of all parties, by input and then by party.
    input_keys: Vec<u8>,
    pub wire_keys: Vec<u8>,
    pub wire_externals: Vec<u8>,
    /// Party 0's figures.
    pub decoded: Vec<u8>,
    /// All parties'.
    pub figures: Vec<Vec<u8>>,
}

/// A meter in which no account has space for a row.
pub const FULL: Meter = Meter {
    totals: [u32::MAX; 8],
};

/// Plays a round. The account that garbling names has space and no other has: it is enough.
pub fn play(setting: &Setting) -> Played {
    let Setting { file, n, k, .. } = setting;
    let circuit = read(file).unwrap();
    let counts = circuit.counts();
    let size = (n * k) as usize;
    let mut rows = vec![0; counts.rows as usize * size];
    let mut input_masks = vec![0; circuit.inputs];
    let mut output_masks = vec![0; *n as usize * circuit.outputs.len()];
    let written = Written {
        rows: &mut rows,
        input_masks: &mut input_masks,
        output_masks: &mut output_masks,
    };
    let mut meter = FULL;
    meter.totals[setting.account as usize] = 7;
    let mut charged = meter;
    charged.totals[setting.account as usize] = 7 + counts.rows;
    let numbers = (*n, *k, setting.round, setting.account);
    garble(file, numbers, &setting.contributions, written, &mut meter).unwrap();
    assert_eq!(meter, charged);
    let externals = all_externals(setting, &circuit, &input_masks);
    let input_keys = all_keys(setting, &circuit, &externals);
    let mut wire_keys = vec![0; circuit.wires.len() * size];
    let mut wire_externals = vec![0; circuit.wires.len()];
    let given = Given {
        contribution: &setting.contributions[..length(&circuit, *k as usize)],
        externals: &externals,
        keys: &input_keys,
        rows: &rows,
    };
    let numbers = (*n, *k, 0, setting.round);
    open(file, numbers, &given, &mut wire_keys, &mut wire_externals).unwrap();
    let sheets = output_masks.chunks(circuit.outputs.len());
    let figures: Vec<Vec<u8>> = (0..)
        .zip(sheets)
        .map(|(party, sheet)| {
            let mut figures = vec![0; sheet.len()];
            decode(file, (*n, party), &wire_externals, sheet, &mut figures).unwrap();
            figures
        })
        .collect();
    Played {
        rows,
        output_masks,
        externals,
        input_keys,
        wire_keys,
        wire_externals,
        decoded: figures[0].clone(),
        figures,
    }
}

fn all_externals(setting: &Setting, circuit: &Circuit, masks: &[u8]) -> Vec<u8> {
    let mut all = vec![0; circuit.inputs];
    for party in 0..setting.n {
        let own = |wire: &usize| circuit.owners().nth(*wire).map(u32::from) == Some(party);
        let own: Vec<usize> = (0..circuit.inputs).filter(own).collect();
        let of = |bytes: &[u8]| -> Vec<u8> { own.iter().map(|wire| bytes[*wire]).collect() };
        let mut written = vec![0; own.len()];
        let (values, masks) = (of(&setting.values), of(masks));
        let parties = (setting.n, party);
        externals(&setting.file, parties, &values, &masks, &mut written).unwrap();
        for (wire, external) in own.iter().zip(written) {
            all[*wire] = external;
        }
    }
    all
}

fn all_keys(setting: &Setting, circuit: &Circuit, externals: &[u8]) -> Vec<u8> {
    let Setting { file, n, k, .. } = setting;
    let each = length(circuit, *k as usize);
    let mut by_party = Vec::new();
    for (party, own) in setting.contributions.chunks(each).enumerate() {
        let mut keys = vec![0; circuit.inputs * *k as usize];
        let numbers = (*n, *k, party as u32);
        input_keys(file, numbers, own, externals, &mut keys).unwrap();
        by_party.push(keys);
    }
    let k = *k as usize;
    let key = |input: usize| {
        by_party
            .iter()
            .flat_map(move |keys| &keys[input * k..][..k])
    };
    (0..circuit.inputs).flat_map(key).copied().collect()
}

#[test]
fn rounds_decode_the_plain_outputs() {
    let mut rng = Rng::new(5);
    for case in 1000..1100 {
        let setting = setting(case, &mut rng);
        assert_eq!(u64::from(setting.account), case % 8);
        let played = play(&setting);
        let mut outputs = vec![0; played.decoded.len()];
        plain(&setting.file, &setting.values, &mut outputs).unwrap();
        let circuit = read(&setting.file).unwrap();
        assert_eq!(played.figures.len(), setting.n as usize);
        for (party, figures) in (0..).zip(&played.figures) {
            let due = circuit.outputs.iter().zip(&outputs);
            let due = due.map(|(output, value)| if output.is_for(party) { *value } else { 255 });
            assert_eq!(*figures, due.collect::<Vec<u8>>());
        }
    }
}

/// The round number of the examples below: that of compare/row.py, as the specification's have none.
const EXAMPLES: u32 = 0x0403_0201;

/// The message to party 0 that a row hides, at key length 1 and two parties.
fn message(played: &Played, row: usize, sender: usize, wire: usize, component: u8) -> u8 {
    let keys: Vec<&[u8]> = played.wire_keys[2 * sender..][..2].chunks(1).collect();
    let row_of = Row {
        round: EXAMPLES,
        modulus: 5,
        wire,
        component,
        receiving: 5,
    };
    let pad = row_of.pads(0, &keys)[0];
    (i32::from(played.rows[2 * row]) - pad).rem_euclid(5) as u8
}

/// v 3, m 4, k 1, D 2 at modulus 5; scaled by 3; times a wire of m 1 and value v_b. The product's
/// record has zero key 4, first key 3, mask 0, first mask 2. Party 1's numbers are made up, the masks
/// of both add up.
fn product(v_b: u8) -> Played {
    let words = [
        HEAD,
        input(0, 5),
        input(1, 5),
        scale(3, 0),
        multiply(0, 1),
        output(2),
        output(3),
        END,
    ];
    play(&Setting {
        file: word::file(&words),
        n: 2,
        k: 1,
        round: EXAMPLES,
        account: 0,
        contributions: vec![
            2, 1, 1, 0, 4, 4, 3, 2, 4, // offset; wire 0; wire 1; product
            3, 2, 3, 4, 2, 1, 1, 3, 3,
        ],
        values: vec![3, v_b],
    })
}

#[test]
fn the_products_of_the_examples() {
    let four = product(4);
    assert_eq!(four.externals, [2, 0]);
    // Party 0's key on the first input.
    assert_eq!(four.input_keys[0], 0);
    // Scaled by 3: mask 2, external 1.
    assert_eq!((four.output_masks[0], four.wire_externals[2]), (2, 1));
    assert_eq!(message(&four, 2, 0, 3, 0), 1);
    assert_eq!(message(&four, 5, 1, 3, 1), 2);
    assert_eq!((four.wire_keys[2 * 3], four.decoded[1]), (3, 2));

    let one = product(1);
    assert_eq!(one.externals, [2, 2]);
    assert_eq!(message(&one, 2, 0, 3, 0), 1);
    assert_eq!(message(&one, 5 + 2, 1, 3, 1), 4);
    assert_eq!((one.wire_keys[2 * 3], one.decoded[1]), (0, 3));
}

#[test]
fn the_selects_of_the_examples() {
    let words = [
        HEAD,
        input(0, 2),
        input(0, 5),
        input(1, 5),
        select(0),
        branches(1, 2),
        output(3),
        END,
    ];
    // w 1, m_a 1, m_b 3, m_h 0, each the sum of two shares; the rest is made up.
    let contributions = vec![
        1, 2, 1, 0, 3, 4, 1, 4, 2, 3, 1, 2, 0, 4, // offsets; bit; a; b; h
        1, 3, 0, 1, 2, 2, 4, 4, 0, 1, 4, 3, 1, 2,
    ];
    for (bit, e_h, e_z, decoded) in [(1, 2, 0, 4), (0, 0, 3, 2)] {
        let played = play(&Setting {
            file: word::file(&words),
            n: 2,
            k: 1,
            round: EXAMPLES,
            account: 7,
            contributions: contributions.clone(),
            values: vec![bit, 2, 4],
        });
        let e_a = played.wire_externals[1];
        assert_eq!(played.wire_externals[3], e_z);
        assert_eq!((e_h + e_a) % 5, e_z);
        assert_eq!(played.decoded, [decoded]);
    }
}

/// The rows that compare/row.py prints.
#[test]
fn rows_of_another_implementation() {
    let words = [
        HEAD,
        input(0, 2),
        project(251, 0),
        entry(7),
        entry(200),
        output(1),
        END,
    ];
    let played = play(&Setting {
        file: word::file(&words),
        n: 2,
        k: 1,
        round: EXAMPLES,
        account: 0,
        contributions: vec![1, 100, 1, 0, 33, 17, 1, 9, 0, 1, 250, 90],
        values: vec![1],
    });
    assert_eq!(played.rows, [68, 49, 95, 69]);
    assert_eq!(played.decoded, [200]);
}

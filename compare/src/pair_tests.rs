//! Whole rounds for two of this program alone, and one worked through by hand.

use crate::circuit::{Gate, read as read_circuit};
use crate::contribution::{combined, scaled};
use crate::generate::circuits::all_moduli;
use crate::generate::pair_example::{
    BIT_MASKS, BIT_PADS, BIT_ROWS, MASKS, PADS, ROUND, ROWS, bit_by_hand, by_hand,
};
use crate::generate::pair_settings::{PairSetting, setting};
use crate::generate::settings::below;
use crate::pad::Row;
use crate::pair::draw::Draw;
use crate::pair::{decode, garble, input_keys, open, read};
use crate::plain::{plain, wire_values};
use crate::rng::Rng;
use crate::round_tests::FULL;
use crate::word::{self, *};

/// What the calls of a round wrote.
struct Played {
    rows: Vec<u8>,
    output_masks: Vec<u8>,
    input_keys: Vec<u8>,
    wire_keys: Vec<u8>,
    wire_externals: Vec<u8>,
    decoded: Vec<u8>,
}

/// Plays a round. The account that garbling names has space and no other has: it is enough.
fn play(setting: &PairSetting) -> Played {
    let PairSetting { file, k, round, .. } = setting;
    let circuit = read_circuit(file).unwrap();
    let (size, account) = (*k as usize, setting.account as usize);
    let count = read(file).unwrap();
    let mut rows = vec![0; size * count as usize];
    let mut output_masks = vec![0; circuit.outputs.len()];
    let (mut meter, mut charged) = (FULL, FULL);
    meter.totals[account] = 7;
    charged.totals[account] = 7 + count;
    let numbers = (*k, *round, setting.account);
    let draw = &setting.draw;
    garble(
        file,
        numbers,
        draw,
        &mut rows,
        &mut output_masks,
        &mut meter,
    )
    .unwrap();
    assert_eq!(meter, charged);
    let mut keys = vec![0; size * circuit.inputs];
    input_keys(file, *k, draw, &setting.values, &mut keys).unwrap();
    let mut wire_keys = vec![0; size * circuit.wires.len()];
    let mut wire_externals = vec![0; circuit.wires.len()];
    let opened = (&mut wire_keys[..], &mut wire_externals[..]);
    open(file, (*k, *round), &keys, &rows, opened.0, opened.1).unwrap();
    let mut decoded = vec![0; circuit.outputs.len()];
    decode(file, &wire_externals, &output_masks, &mut decoded).unwrap();
    Played {
        rows,
        output_masks,
        input_keys: keys,
        wire_keys,
        wire_externals,
        decoded,
    }
}

/// Of these settings the first 128 have every key length, the next some of the moduli each.
#[test]
fn rounds_decode_the_plain_outputs() {
    let mut rng = Rng::new(8);
    for case in (1..=128).chain((129..345).step_by(9)).chain(1000..1100) {
        let setting = setting(case, &mut rng);
        assert!(case > 128 || u64::from(setting.k) == case);
        let played = play(&setting);
        let mut outputs = vec![0; played.decoded.len()];
        plain(&setting.file, &setting.values, &mut outputs).unwrap();
        assert_eq!(played.decoded, outputs, "case {case}");
    }
}

/// The key for the value v is the zero key plus v·D, so two keys of a wire differ by the values'
/// difference times the offset; and component 0 of every key is the external value.
#[test]
fn keys_are_zero_keys_and_values_times_offsets() {
    let mut rng = Rng::new(9);
    for case in 1000..1100 {
        let one = setting(case, &mut rng);
        let circuit = read_circuit(&one.file).unwrap();
        let k = one.k as usize;
        let moduli: Vec<u8> = circuit.input_moduli().collect();
        let other = PairSetting {
            values: below(&moduli, &mut rng),
            ..one.clone()
        };
        let draw = Draw::checked(&circuit, k, &one.draw).unwrap();
        let played = [&one, &other].map(play);
        let values = [&one, &other].map(|setting| wire_values(&circuit, &setting.values));
        for (number, wire) in circuit.wires.iter().enumerate() {
            let keys = [0, 1].map(|at| &played[at].wire_keys[number * k..][..k]);
            assert_eq!(keys[0][0], played[0].wire_externals[number]);
            let more = i32::from(values[1][number]) - i32::from(values[0][number]);
            let offset = draw.offset(wire.modulus);
            assert_eq!(combined(wire.modulus, keys[0], more, offset), keys[1]);
        }
    }
}

/// Where the external values that a gate is opened with are 0, its key is what an all-zero row leaves:
/// the pads, negated. Every fourth circuit of the sweep of moduli has such gates.
#[test]
fn missing_rows_would_be_all_zero() {
    let mut rng = Rng::new(10);
    let (mut projections, mut products) = (0, 0);
    for case in (132..252).step_by(4) {
        let setting = setting(case, &mut rng);
        let circuit = read_circuit(&setting.file).unwrap();
        let k = setting.k as usize;
        let played = play(&setting);
        let key = |wire: u16| &played.wire_keys[usize::from(wire) * k..][..k];
        for (number, wire) in circuit.wires.iter().enumerate() {
            let q = wire.modulus;
            let pads = |component: u8, sender: u16| -> Vec<u8> {
                let row = Row {
                    round: setting.round,
                    modulus: circuit.modulus(sender),
                    wire: number,
                    component,
                    receiving: q,
                };
                let pads = row.pads(0, &[key(sender)]);
                pads.into_iter().map(|pad| pad as u8).collect()
            };
            let due = match wire.gate {
                Gate::Project { a, .. } if key(a)[0] == 0 => {
                    projections += 1;
                    pads(0, a)
                }
                Gate::Multiply { a, b } if key(a)[0] == 0 && key(b)[0] == 0 => {
                    products += 1;
                    combined(q, &pads(0, a), 1, &pads(1, b))
                }
                _ => continue,
            };
            assert_eq!(scaled(q, -1, &due), key(number as u16), "case {case}");
        }
    }
    assert!(projections >= 30 && products >= 60);
}

/// p − 1 rows of a projection from modulus p, whatever it is to; 2p − 2 of every product, a wire times
/// itself too, which is no projection here.
#[test]
fn rows_of_every_modulus() {
    for p in all_moduli() {
        let mut words = vec![HEAD, input(0, p), project(2, 0)];
        words.extend((0..p).map(|value| entry(value % 2)));
        words.extend([project(p, 1), entry(1), entry(0), output(2), END]);
        assert_eq!(read(&word::file(&words)), Ok(p - 1 + 1));
        let square = [HEAD, input(0, p), multiply(0, 0), output(1), END];
        assert_eq!(read(&word::file(&square)), Ok(2 * p - 2));
        let product = [
            HEAD,
            input(0, p),
            input(7, p),
            multiply(0, 1),
            output(2),
            END,
        ];
        assert_eq!(read(&word::file(&product)), Ok(2 * p - 2));
        let free = [
            HEAD,
            input(0, p),
            add(0, 0),
            scale(p - 1, 1),
            output(2),
            END,
        ];
        assert_eq!(read(&word::file(&free)), Ok(0));
    }
}

/// A bit times itself is a product here, with the rows and the mask worked through by hand. The keys of
/// the bit and of the product are (1, 0, 0) and (0, 1, 0) for the value 0, both the other way about for 1.
#[test]
fn a_bit_times_itself() {
    let row = |component: u8| Row {
        round: ROUND,
        modulus: 2,
        wire: 1,
        component,
        receiving: 2,
    };
    let keys = [[0, 1, 0], [1, 0, 0]];
    let pads = [0, 1].map(|component| keys.map(|key| row(component).pads(0, &[key])));
    let pads = pads.concat().concat();
    assert!(pads.into_iter().eq(BIT_PADS.map(i32::from)));
    for (bit, keys) in [(0, [1, 0, 0, 0, 1, 0]), (1, [0, 1, 0, 1, 0, 0])] {
        let played = play(&bit_by_hand(bit));
        assert_eq!(played.rows, BIT_ROWS);
        assert_eq!(played.output_masks, BIT_MASKS);
        assert_eq!(played.wire_keys, keys);
        assert_eq!(played.decoded, [bit]);
    }
}

/// Opened under another round number the pads are others. Nothing refuses that.
#[test]
fn another_round_opens_to_other_keys() {
    let setting = by_hand([1, 2]);
    let played = play(&setting);
    let (mut keys, mut externals) = ([0; 8], [0; 4]);
    let round = setting.round ^ 1 << 24;
    let given = (&played.input_keys[..], &played.rows[..]);
    open(
        &setting.file,
        (2, round),
        given.0,
        given.1,
        &mut keys,
        &mut externals,
    )
    .unwrap();
    assert_ne!(keys[..], played.wire_keys[..]);
}

#[test]
fn the_pads_of_the_example() {
    let (under_a, under_b) = ([[0, 0], [1, 2], [2, 1]], [[0, 1], [1, 0], [2, 2]]);
    let halves = [(2, 0, under_a, 5), (3, 0, under_a, 3), (3, 1, under_b, 3)];
    let mut found = Vec::new();
    for (wire, component, keys, receiving) in halves {
        let row = Row {
            round: ROUND,
            modulus: 3,
            wire,
            component,
            receiving,
        };
        found.extend(keys.iter().flat_map(|key| row.pads(0, &[key])));
    }
    assert_eq!(found, PADS.map(i32::from));
}

#[test]
fn the_rows_of_the_example() {
    for a in 0..3 {
        for b in 0..3 {
            let played = play(&by_hand([a, b]));
            assert_eq!(played.rows, ROWS);
            assert_eq!(played.output_masks, MASKS);
            let image = [2, 4, 1][usize::from(a)];
            assert_eq!(played.decoded, [image, a * b % 3]);
        }
    }
}

/// Values 2 and 2: a's key is (2, 1) + 2·(1, 2) = (1, 2), b's is (1, 0) + 2·(1, 2) = (0, 1).
///
/// Row 1 of the projection is (1, 1) and its pad (2, 2): key (4, 4), 4 − 3 = 1, the image of 2.
///
/// Row 1 of the first half is (1, 2), as is its pad; row 0 of the second is (0, 0) and its pad (1, 1):
/// (0, 0) + (2, 2) + 0·a's key, and 2 − 1 = 1, which is 2·2.
#[test]
fn an_opening_of_the_example() {
    let played = play(&by_hand([2, 2]));
    assert_eq!(played.input_keys, [1, 2, 0, 1]);
    assert_eq!(played.wire_keys, [1, 2, 0, 1, 4, 4, 2, 2]);
    assert_eq!(played.wire_externals, [1, 0, 4, 2]);
    assert_eq!(played.decoded, [1, 1]);
}

/// Values 0 and 1: a's key is its zero key (2, 1), b's is (1, 0) + (1, 2) = (2, 2).
///
/// Row 2 of the first half is (0, 1) less the pad (1, 0), row 2 of the second (2, 2) less (1, 2):
/// (2, 1) + (1, 0) + 2·(2, 1) = (7, 3) = (1, 0), the zero key.
#[test]
fn another_opening_of_the_example() {
    let played = play(&by_hand([0, 1]));
    assert_eq!(played.input_keys, [2, 1, 2, 2]);
    assert_eq!(played.wire_keys[6..], [1, 0]);
    assert_eq!(played.decoded, [2, 0]);
}

/// Where there are no rows, a full account takes the garbling too.
#[test]
fn no_rows_have_space_in_a_full_account() {
    let file = word::file(&[HEAD, input(0, 2), output(0), END]);
    let (mut meter, mut masks) = (FULL, [7]);
    garble(&file, (1, 0, 6), &[1, 0], &mut [], &mut masks, &mut meter).unwrap();
    assert_eq!((meter, masks), (FULL, [0]));
}

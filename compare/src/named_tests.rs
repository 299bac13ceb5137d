//! Outputs for named seats: sheets, figures and refusals, worked out by hand from the specification.

use crate::circuit::{Output, Refusal, read};
use crate::decode::decode;
use crate::garble::{Written, garble};
use crate::generate::settings::Setting;
use crate::inputs::{externals, input_keys};
use crate::meter::Meter;
use crate::open::{Given, open};
use crate::pair;
use crate::plain::plain;
use crate::record::{List, Record, records};
use crate::round_tests::play;
use crate::session::inputs_of;
use crate::word::{self, *};
use crate::writer::{words_of, write};

type Answer = Result<(), (u32, usize)>;

fn answer(result: Result<(), Refusal>) -> Answer {
    result.map_err(|Refusal { number, place }| (number, place))
}

/// Inputs of three parties and a sum, wire 3. Everybody reads the sum, then wire 2 is for seat 0, wire 0
/// for seats 1 and 2, and the sum once more for seat 2.
const WORDS: [u32; 10] = [
    HEAD,
    input(0, 5),
    input(1, 5),
    input(2, 7),
    add(0, 1),
    output(3),
    named_output(0b001, 2),
    named_output(0b110, 0),
    named_output(0b100, 3),
    END,
];

/// The external values of values 4, 3 and 5: 4 + 3, 3 + 2, 5 + 6, and 2 + 0.
const EXTERNALS: [u8; 4] = [2, 0, 4, 2];

/// Of each party: offsets modulo 5 and 7, then zero key and mask share of each input. The masks are
/// 4 + 3 + 1 = 3, 2 + 1 + 4 = 2 and 6 + 5 + 2 = 6; the sum's is 3 + 2 = 0.
const CONTRIBUTIONS: [u8; 24] = [
    1, 1, 0, 4, 1, 2, 3, 6, //
    2, 3, 2, 3, 0, 1, 5, 5, //
    4, 6, 3, 1, 4, 4, 0, 2,
];

const SHEETS: [u8; 12] = [
    0, 6, 255, 255, // seat 0
    0, 255, 3, 255, // seat 1
    0, 255, 3, 0, // seat 2
];

fn setting() -> Setting {
    Setting {
        file: word::file(&WORDS),
        n: 3,
        k: 1,
        round: 9,
        account: 0,
        contributions: CONTRIBUTIONS.to_vec(),
        values: vec![4, 3, 5],
    }
}

/// The wire and the seats of each output; bits 27 to 18 must be zero still.
#[test]
fn the_reader_takes_the_seats_apart() {
    let file = word::file(&WORDS);
    let found = read(&file).unwrap().outputs;
    let due = [(3, 0), (2, 1), (0, 6), (3, 4)].map(|(wire, named)| Output { wire, named });
    assert_eq!(found, due);
    for named in 0..256 {
        let file = word::file(&[HEAD, input(0, 2), 10 << 28 | named << 10, END]);
        let due = Output {
            wire: 0,
            named: named as u8,
        };
        assert_eq!(read(&file).unwrap().outputs, [due]);
    }
    for bit in 18..28 {
        let file = word::file(&[HEAD, input(0, 2), named_output(255, 0) | 1 << bit, END]);
        let refusal = Refusal {
            number: 2,
            place: 2,
        };
        assert_eq!(read(&file).unwrap_err(), refusal);
    }
}

/// The seats are no part of the wire: 1,023 with all seats named.
#[test]
fn the_wire_is_judged_without_the_seats() {
    let mut words = vec![HEAD];
    words.resize(1 + 1024, input(0, 2));
    words.extend([named_output(255, 1023), END]);
    assert_eq!(words[1025], 0xA003_FFFF);
    assert!(read(&word::file(&words)).is_ok());
    words.remove(1);
    let refusal = Refusal {
        number: 5,
        place: 1024,
    };
    assert_eq!(read(&word::file(&words)).unwrap_err(), refusal);
}

/// Values 4, 3 and 5: the sum is 7, that is 2.
#[test]
fn every_seat_has_its_sheet_and_its_figures() {
    let played = play(&setting());
    assert_eq!(played.output_masks, SHEETS);
    assert_eq!(played.wire_externals, EXTERNALS);
    let figures = [[2, 5, 255, 255], [2, 255, 4, 255], [2, 255, 4, 2]];
    assert_eq!(played.figures, figures);
    // Plain evaluation is given no seat.
    let mut outputs = [7; 4];
    plain(&word::file(&WORDS), &[4, 3, 5], &mut outputs).unwrap();
    assert_eq!(outputs, [2, 5, 4, 2]);
}

/// No seat named is not the same word as all named, but the same sheets.
#[test]
fn nobody_named_is_everybody() {
    let for_seats = |named: u32| {
        let mut words = WORDS;
        for (at, wire) in (5..9).zip([3, 2, 0, 3]) {
            words[at] = named_output(named, wire);
        }
        play(&Setting {
            file: word::file(&words),
            ..setting()
        })
    };
    let (everybody, all) = (for_seats(0), for_seats(7));
    assert_eq!(everybody.output_masks, [0, 6, 3, 0].repeat(3));
    assert_eq!(all.output_masks, everybody.output_masks);
    assert_eq!(everybody.figures, [[2, 5, 4, 2]; 3]);
    assert_eq!(all.figures, everybody.figures);
    // Rows and keys have nothing to do with it.
    let named = play(&setting());
    assert_eq!(named.rows, everybody.rows);
    assert_eq!(named.wire_keys, everybody.wire_keys);
}

/// Of eight seats the last, by bit 17.
#[test]
fn the_eighth_seat_has_the_highest_bit() {
    let file = word::file(&[HEAD, input(7, 11), 0xA002_0000, END]);
    for party in 0..8 {
        let mut figures = [7];
        decode(&file, (8, party), &[3], &[4], &mut figures).unwrap();
        assert_eq!(figures, [if party == 7 { 10 } else { 255 }]);
    }
}

/// Other keys, other offsets, and other masks of wires 0 and 1, whose sum has the same: what seat 0 may
/// read has equal masks, and so its sheet is the same. The others read wire 0.
#[test]
fn equal_masks_give_a_seat_the_same_sheet() {
    let mut again = setting();
    // Masks 4 + 0 + 0 = 4, 0 + 1 + 0 = 1 and 0 + 0 + 6 = 6.
    again.contributions = vec![
        3, 5, 1, 4, 4, 0, 6, 0, //
        1, 1, 0, 0, 3, 1, 2, 0, //
        2, 2, 2, 0, 1, 0, 4, 6,
    ];
    let sheets = play(&again).output_masks;
    assert_eq!(sheets[..4], SHEETS[..4]);
    assert_eq!(sheets[4..], [0, 255, 4, 255, 0, 255, 4, 0]);
}

/// Decodes as a seat of three with bytes put at these places: externals, masks. Where that is refused,
/// nothing is written.
fn decoded(
    party: u32,
    high: &[(usize, u8)],
    masked: &[(usize, u8)],
) -> Result<[u8; 4], (u32, usize)> {
    let (mut externals, at) = (EXTERNALS, 4 * party as usize);
    let mut masks: [u8; 4] = SHEETS[at..at + 4].try_into().unwrap();
    high.iter().for_each(|(at, byte)| externals[*at] = *byte);
    masked.iter().for_each(|(at, byte)| masks[*at] = *byte);
    let mut outputs = [7; 4];
    let file = word::file(&WORDS);
    let result = decode(&file, (3, party), &externals, &masks, &mut outputs);
    assert_eq!(result.is_err(), outputs == [7; 4]);
    answer(result).map(|()| outputs)
}

/// The mask of an output that the seat may not read may be anything; of the others none may be as large
/// as its modulus, 5, 7, 5 and 5.
#[test]
fn masks_are_judged_where_they_are_read() {
    for byte in [0, 4, 5, 6, 7, 254, 255] {
        assert_eq!(decoded(0, &[], &[(2, byte)]), Ok([2, 5, 255, 255]));
        assert_eq!(
            decoded(0, &[], &[(2, byte), (3, byte)]),
            Ok([2, 5, 255, 255])
        );
        assert_eq!(decoded(1, &[], &[(1, byte)]), Ok([2, 255, 4, 255]));
    }
    assert_eq!(decoded(0, &[], &[(0, 5)]), Err((15, 0)));
    assert_eq!(decoded(0, &[], &[(1, 7)]), Err((15, 1)));
    assert_eq!(decoded(1, &[], &[(2, 5)]), Err((15, 2)));
    assert_eq!(decoded(2, &[], &[(3, 255)]), Err((15, 3)));
    // The lowest that counts: one that is passed over is no place.
    assert_eq!(decoded(1, &[], &[(1, 255), (2, 255)]), Err((15, 2)));
    assert_eq!(decoded(0, &[], &[(0, 255), (1, 255)]), Err((15, 0)));
}

/// External values are judged on every wire, whoever may read it, and the lowest index of both buffers is
/// named.
#[test]
fn external_values_are_judged_on_every_wire() {
    // Wire 0 is output 2, which seat 0 may not read; wire 1 is no output.
    assert_eq!(decoded(0, &[(0, 5)], &[]), Err((15, 0)));
    assert_eq!(decoded(0, &[(1, 5)], &[]), Err((15, 1)));
    assert_eq!(decoded(1, &[(2, 7)], &[]), Err((15, 2)));
    assert_eq!(decoded(1, &[(3, 5)], &[(2, 5)]), Err((15, 2)));
    assert_eq!(decoded(1, &[(2, 7)], &[(0, 5)]), Err((15, 0)));
    assert_eq!(decoded(1, &[(2, 7)], &[(1, 255)]), Err((15, 2)));
    assert_eq!(decoded(2, &[(3, 255)], &[(3, 255)]), Err((15, 3)));
}

/// Two inputs, a sum, and outputs of it; the second names seats 0 and 1, the third seat 2, the fourth
/// seats 1 and 5.
const NAMED: [u32; 9] = [
    HEAD,
    input(0, 5),
    input(1, 5),
    add(0, 1),
    output(2),
    named_output(0b11, 2),
    named_output(0b100, 1),
    named_output(0b10_0010, 0),
    END,
];

/// What all calls that are given n answer, each lent a buffer of the wrong length: counting inputs,
/// external values, input keys, opening, garbling and decoding.
fn answers(words: &[u32], n: u32, party: u32) -> [Answer; 6] {
    let file = word::file(words);
    let written = Written {
        rows: &mut [],
        input_masks: &mut [],
        output_masks: &mut [],
    };
    let given = Given {
        contribution: &[],
        externals: &[],
        keys: &[],
        rows: &[],
    };
    let mut meter = Meter::default();
    [
        inputs_of(&file, n, party).map(|_| ()),
        // A party that owns no input is rightly lent nothing.
        externals(&file, (n, party), &[0, 0, 0], &[], &mut []),
        input_keys(&file, (n, 1, party), &[], &[], &mut []),
        open(&file, (n, 1, party, 0), &given, &mut [], &mut []),
        garble(&file, (n, 1, 0, 0), &[], written, &mut meter),
        decode(&file, (n, party), &[], &[], &mut []),
    ]
    .map(answer)
}

/// The same but for one call, which is given less.
fn but_for(mut all: [Answer; 6], at: usize, other: Answer) -> [Answer; 6] {
    all[at] = other;
    all
}

/// The place is the output's index: its wire is 1 or 0 here, its word 6 or 7.
#[test]
fn the_first_output_of_a_stranger_is_named() {
    let lengths = but_for([Err((14, 0)); 6], 0, Ok(()));
    assert_eq!(answers(&NAMED, 2, 0), [Err((28, 2)); 6]);
    for n in 3..=5 {
        assert_eq!(answers(&NAMED, n, 1), [Err((28, 3)); 6]);
    }
    for n in 6..=8 {
        assert_eq!(answers(&NAMED, n, 1), lengths);
    }
    // The very first, and the last of all there may be.
    let mut words = vec![HEAD, input(0, 2), named_output(0x80, 0)];
    words.resize(2 + 255, output(0));
    words.extend([named_output(4, 0), END]);
    assert_eq!(answers(&words, 7, 0), [Err((28, 0)); 6]);
    words[2] = output(0);
    assert_eq!(answers(&words, 2, 0), [Err((28, 255)); 6]);
    assert_eq!(answers(&words, 3, 0), lengths);
}

/// Each seat at or above n, alone and beside all below it.
#[test]
fn every_seat_from_n_on_is_a_stranger() {
    for n in 2..=8 {
        for seat in 0..8 {
            for named in [1 << seat, (2 << seat) - 1] {
                let words = [HEAD, input(0, 2), output(0), named_output(named, 0), END];
                let number = inputs_of(&word::file(&words), n, 0);
                let due = Refusal {
                    number: 28,
                    place: 1,
                };
                assert_eq!(number, if seat < n { Ok(1) } else { Err(due) });
            }
        }
    }
}

/// 11, 12 and 13 come before 28, and 28 before 14.
#[test]
fn seats_are_judged_after_owners() {
    for n in [0, 1, 9, 258, u32::MAX] {
        assert_eq!(answers(&NAMED, n, 9), [Err((11, 0)); 6]);
    }
    // Garbling takes no seat.
    let stranger = but_for([Err((12, 2)); 6], 4, Err((28, 2)));
    assert_eq!(answers(&NAMED, 2, 2), stranger);
    let mut words = NAMED;
    words[2] = input(2, 5);
    assert_eq!(answers(&words, 2, 0), [Err((13, 1)); 6]);
    let stranger = but_for([Err((12, 7)); 6], 4, Err((13, 1)));
    assert_eq!(answers(&words, 2, 7), stranger);
    assert_eq!(answers(&words, 3, 0), [Err((28, 3)); 6]);
    // Key lengths are judged with n.
    let file = word::file(&NAMED);
    let refusal = input_keys(&file, (2, 0, 0), &[], &[], &mut []).unwrap_err();
    assert_eq!((refusal.number, refusal.place), (11, 0));
}

/// Garbling's sheets are n times as many bytes as there are outputs, and decoding takes one.
#[test]
fn sheets_have_exact_lengths() {
    let file = word::file(&WORDS);
    for length in 0..40 {
        let (mut meter, mut masks) = (Meter::default(), vec![7; length]);
        let written = Written {
            rows: &mut [],
            input_masks: &mut [0; 3],
            output_masks: &mut masks,
        };
        let result = garble(&file, (3, 1, 0, 0), &CONTRIBUTIONS, written, &mut meter);
        let due = if length == 12 { Ok(()) } else { Err((14, 0)) };
        assert_eq!(answer(result), due);
        let result = decode(&file, (3, 0), &EXTERNALS, &vec![0; length], &mut [7; 4]);
        let due = if length == 4 { Ok(()) } else { Err((14, 0)) };
        assert_eq!(answer(result), due);
    }
}

/// Calls that are given no n take any seat: reading, plain evaluation, and taking back.
#[test]
fn calls_without_n_take_any_seat() {
    let file = word::file(&[HEAD, input(0, 5), named_output(0xFE, 0), END]);
    assert!(read(&file).is_ok());
    let mut outputs = [7];
    plain(&file, &[3], &mut outputs).unwrap();
    assert_eq!(outputs, [3]);
    let mut into = [Record::default(); 2];
    records(&file, &mut into, &mut []).unwrap();
    assert_eq!(into[1], Record::named_output(0xFE, 0));
}

/// A multiplication for two whose outputs name these seats.
fn for_two(named: [u32; 2]) -> Vec<u8> {
    let [one, other] = named;
    let outputs = [named_output(one, 2), named_output(other, 0)];
    let words = [
        &[HEAD, input(0, 5), input(1, 5), multiply(0, 1)],
        &outputs[..],
        &[END],
    ];
    word::file(&words.concat())
}

/// Whomever the outputs name: one sheet with every mask, and both sides read everything.
#[test]
fn the_form_for_two_passes_over_the_seats() {
    // Offset; zero keys of both inputs.
    let draw = [1, 2, 3, 0, 4, 1];
    let play = |file: &[u8]| {
        let (mut rows, mut masks, mut meter) = ([7; 16], [7; 2], Meter::default());
        pair::garble(file, (2, 0, 0), &draw, &mut rows, &mut masks, &mut meter).unwrap();
        let mut keys = [7; 4];
        pair::input_keys(file, 2, &draw, &[2, 3], &mut keys).unwrap();
        let (mut wire_keys, mut wire_externals) = ([7; 6], [7; 3]);
        pair::open(
            file,
            (2, 0),
            &keys,
            &rows,
            &mut wire_keys,
            &mut wire_externals,
        )
        .unwrap();
        let mut figures = [7; 2];
        pair::decode(file, &wire_externals, &masks, &mut figures).unwrap();
        assert_eq!(pair::read(file), Ok(8));
        (rows, masks, wire_keys, figures)
    };
    let everybody = play(&for_two([0, 0]));
    // The second output is wire 0, whose zero key begins with 3; 2·3 = 1 modulo 5.
    assert_eq!((everybody.1[1], everybody.3), (3, [1, 2]));
    for named in [[1, 2], [3, 0], [4, 128], [255, 1], [252, 252]] {
        assert_eq!(play(&for_two(named)), everybody);
    }
}

/// 14, then 15 over both buffers, of all wires and of all masks.
#[test]
fn decoding_for_two_is_as_it_was() {
    let file = for_two([0xFC, 1]);
    let decoded = |externals: &[u8], masks: &[u8], length: usize| {
        let mut figures = vec![7; length];
        let result = pair::decode(&file, externals, masks, &mut figures);
        assert!(result.is_ok() || figures.iter().all(|byte| *byte == 7));
        answer(result).map(|()| figures)
    };
    assert_eq!(decoded(&[1, 0, 4], &[2, 3], 2), Ok(vec![2, 3]));
    assert_eq!(decoded(&[1, 0, 4], &[2, 5], 2), Err((15, 1)));
    assert_eq!(decoded(&[1, 0, 4], &[255, 255], 2), Err((15, 0)));
    assert_eq!(decoded(&[1, 5, 4], &[0, 5], 2), Err((15, 1)));
    assert_eq!(decoded(&[1, 0, 5], &[0, 5], 2), Err((15, 1)));
    assert_eq!(decoded(&[1, 0, 5], &[0, 0], 2), Err((15, 2)));
    for (externals, masks, length) in [(2, 2, 2), (3, 4, 2), (3, 2, 1), (4, 2, 2), (0, 0, 0)] {
        let (externals, masks) = (vec![255; externals], vec![255; masks]);
        assert_eq!(decoded(&externals, &masks, length), Err((14, 0)));
    }
    // The file comes first, and a third party's input is not looked at.
    let cut = pair::decode(&file[..4], &[], &[], &mut []);
    assert_eq!(answer(cut), Err((10, 1)));
    let mut strange = file.clone();
    strange[4 + 2] = 7;
    assert_eq!(
        answer(pair::decode(&strange, &[1, 0, 4], &[2, 3], &mut [7; 2])),
        Ok(())
    );
}

/// The byte lies in bits 17 to 10, and comes back.
#[test]
fn the_writer_lays_down_the_seats() {
    let list = [
        Record::input(0, 2),
        Record::named_output(0x81, 0),
        Record::output(0),
        Record::named_output(0xFF, 0),
    ];
    let words = [
        0x1000_0000,
        0x2000_0002,
        0xA002_0400,
        0xA000_0000,
        0xA003_FC00,
        0xB000_0000,
    ];
    assert_eq!(words_of(&list, &[]), Ok(words.to_vec()));
    let (mut file, mut count) = ([0; 24], 0);
    write(&list, &[], &mut file, &mut count).unwrap();
    assert_eq!((count, &file[8..12]), (6, &[0x00, 0x04, 0x02, 0xA0][..]));
    assert_eq!(List::of(&read(&file).unwrap()).records, list);
    // The wire is judged by its value, without them.
    let wide = Record::named_output(1, 1 << 10);
    let fault = words_of(&[Record::input(0, 2), wide], &[]).unwrap_err();
    assert_eq!((fault.refusal.number, fault.refusal.place), (5, 1));
}

/// A field that such a record does not have: 2, before its other checks.
#[test]
fn outputs_alone_name_seats() {
    let right = [
        Record::input(0, 2),
        Record::add(0, 0),
        Record::scale(1, 0),
        Record::multiply(0, 0),
        Record::project(2, 0),
        Record::select(0, 0, 0),
    ];
    let wrong = [
        Record::input(8, 4),
        Record::add(9, 9),
        Record::scale(0, 9),
        Record::multiply(9, 9),
        Record::project(4, 9),
        Record::select(9, 9, 9),
    ];
    for record in right.into_iter().chain(wrong) {
        for named in [1, 2, 128, 255] {
            let seated = Record { named, ..record };
            let list = [Record::input(0, 2), seated, Record::output(0)];
            let fault = words_of(&list, &[0, 1]).unwrap_err();
            assert_eq!((fault.refusal.number, fault.refusal.place), (2, 1));
        }
    }
    let seated = Record {
        kind: 11,
        named: 1,
        ..Record::default()
    };
    let fault = words_of(&[seated], &[]).unwrap_err();
    assert_eq!((fault.refusal.number, fault.refusal.place), (2, 0));
}

/// As C lays it out: seven numbers of four bytes, the byte, and three that pad it.
#[test]
fn a_record_has_its_byte_at_the_end() {
    assert_eq!(size_of::<Record>(), 32);
    assert_eq!(std::mem::offset_of!(Record, b), 24);
    assert_eq!(std::mem::offset_of!(Record, named), 28);
}

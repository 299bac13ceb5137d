//! The writer against words laid out by hand, each refusal with its place, and round trips.

use crate::circuit::{Refusal, read};
use crate::generate::circuits::{accepted, at_limit};
use crate::generate::record_sweep;
use crate::generate::records::random_list;
use crate::record::{List, Record, records};
use crate::rng::Rng;
use crate::word;
use crate::writer::{Fault, words_of, write};

/// A refusal's number and place, where the list is refused.
fn refused(records: &[Record], tables: &[u8]) -> Option<(u32, usize)> {
    let fault = words_of(records, tables).err()?;
    Some((fault.refusal.number, fault.refusal.place))
}

const BIT: Record = Record::input(0, 2);
const THREE: Record = Record::input(0, 3);
const OUT: Record = Record::output(0);

/// The refusal of a record that comes after three inputs, of moduli 2, 3 and 3, and before an
/// output, with the table of a projection of the bit.
fn refused_third(record: Record) -> Option<(u32, usize)> {
    refused(&[BIT, THREE, THREE, record, OUT], &[0, 1])
}

#[test]
fn every_kind_is_laid_out_by_its_bits() {
    let list = [
        Record::input(7, 251),
        Record::input(3, 2),
        Record::add(0, 0),
        Record::scale(250, 2),
        Record::multiply(3, 2),
        Record::project(13, 1),
        Record::select(1, 4, 0),
        Record::output(6),
        Record::output(5),
    ];
    let by_hand = [
        1 << 28,
        2 << 28 | 7 << 16 | 251,
        2 << 28 | 3 << 16 | 2,
        3 << 28,
        4 << 28 | 250 << 10 | 2,
        5 << 28 | 3 << 10 | 2,
        6 << 28 | 13 << 10 | 1,
        7 << 28 | 12,
        7 << 28,
        8 << 28 | 1,
        9 << 28 | 4 << 10,
        10 << 28 | 6,
        10 << 28 | 5,
        11 << 28,
    ];
    assert_eq!(words_of(&list, &[12, 0]), Ok(by_hand.to_vec()));
    let (mut file, mut words) = ([0xEE; 60], 0);
    write(&list, &[12, 0], &mut file, &mut words).unwrap();
    assert_eq!(words, 14);
    assert_eq!(file[4..8], [0xFB, 0x00, 0x07, 0x20]);
    assert_eq!(file[16..20], [0x02, 0xE8, 0x03, 0x40]);
    assert_eq!(file[56..], [0xEE; 4]);
}

#[test]
fn fields_of_ten_bits_are_laid_out_by_their_bits() {
    let mut list = vec![BIT; 1021];
    list.extend([
        Record::add(1020, 513),
        Record::multiply(513, 1021),
        Record::select(1022, 1, 1022),
        Record::output(1023),
    ]);
    let words = words_of(&list, &[]).unwrap();
    let by_hand = [
        0x300F_F201,
        0x5008_07FD,
        0x8000_03FE,
        0x9000_07FE,
        0xA000_03FF,
        0xB000_0000,
    ];
    assert_eq!(words[1022..], by_hand);
}

#[test]
fn kinds_and_unused_fields_come_first() {
    for kind in [0, 1, 7, 9, 11, 12, 16, 18, 258, u32::MAX] {
        let record = Record { kind, ..BIT };
        assert_eq!(refused_third(record), Some((2, 3)), "{kind}");
    }
    // What each kind uses, in the order of the fields after the kind.
    let uses = [
        (BIT, "modulus owner"),
        (Record::add(1, 2), "a b"),
        (Record::scale(1, 1), "constant a"),
        (Record::multiply(1, 2), "a b"),
        (Record::project(2, 0), "modulus a"),
        (Record::select(0, 1, 2), "bit a b"),
        (OUT, "a"),
    ];
    let names = ["modulus", "owner", "constant", "bit", "a", "b"];
    for (record, used) in uses {
        for (field, name) in names.iter().enumerate() {
            let mut stray = record;
            *stray.fields_mut()[field + 1] = 1 << 16;
            let number = refused_third(stray).map(|(number, _)| number);
            let is_used = used.split(' ').any(|used| used == *name);
            assert_eq!(number != Some(2), is_used, "{record:?} {name}");
        }
    }
}

#[test]
fn runs_come_in_order() {
    let sum = Record::add(0, 0);
    assert_eq!(refused(&[BIT, sum, BIT, OUT], &[]), Some((3, 2)));
    assert_eq!(refused(&[BIT, OUT, BIT], &[]), Some((3, 2)));
    assert_eq!(refused(&[BIT, OUT, OUT, sum], &[]), Some((3, 3)));
    assert_eq!(refused(&[BIT, OUT], &[]), None);
    // A run may be empty; it is the wire that is not made.
    assert_eq!(refused(&[OUT], &[]), Some((5, 0)));
    assert_eq!(refused(&[sum, OUT], &[]), Some((5, 0)));
}

#[test]
fn fields_are_judged_by_value() {
    for modulus in [0, 1, 4, 250, 253, 255, 256, 257, 258, 65_539, u32::MAX] {
        assert_eq!(refused_third(Record::project(modulus, 0)), Some((4, 3)));
        assert_eq!(refused(&[Record::input(0, modulus)], &[]), Some((4, 0)));
    }
    for wire in [3, 4, 1023, 1024, 1025, 65_537, 1 << 31, u32::MAX] {
        let naming = [
            Record::add(wire, 1),
            Record::multiply(1, wire),
            Record::scale(1, wire),
            Record::project(2, wire),
            Record::select(wire, 1, 1),
            Record::select(0, 1, wire),
            Record::output(wire),
        ];
        for record in naming {
            assert_eq!(refused_third(record), Some((5, 3)), "{record:?}");
        }
    }
    for owner in [8, 255, 256, 257, 65_536, u32::MAX] {
        assert_eq!(refused(&[Record::input(owner, 2)], &[]), Some((7, 0)));
    }
    for constant in [0, 3, 4, 256, 257, 258, 1025, 65_537, u32::MAX] {
        assert_eq!(refused_third(Record::scale(constant, 1)), Some((7, 3)));
    }
}

#[test]
fn moduli_must_be_alike() {
    assert_eq!(refused_third(Record::add(0, 1)), Some((6, 3)));
    assert_eq!(refused_third(Record::multiply(2, 0)), Some((6, 3)));
    assert_eq!(refused_third(Record::select(1, 1, 2)), Some((6, 3)));
    assert_eq!(refused_third(Record::select(0, 0, 2)), Some((6, 3)));
}

#[test]
fn a_select_is_judged_bit_first() {
    // The bit's 6 before a branch's 5, and its 5 before a branch's 6.
    assert_eq!(refused_third(Record::select(1, 9, 9)), Some((6, 3)));
    assert_eq!(refused_third(Record::select(3, 0, 1)), Some((5, 3)));
    // The select's own wire as a branch, and all wires equal.
    assert_eq!(refused_third(Record::select(0, 3, 1)), Some((5, 3)));
    assert_eq!(refused(&[BIT, Record::select(0, 0, 0), OUT], &[]), None);
    // A wire too many before its branches.
    let mut list = vec![BIT; 1024];
    list.push(Record::select(0, 1024, 0));
    assert_eq!(refused(&list, &[]), Some((8, 1024)));
    list[1024] = Record::select(1024, 0, 0);
    assert_eq!(refused(&list, &[]), Some((5, 1024)));
}

#[test]
fn wires_and_outputs_have_limits() {
    let mut list = vec![BIT; 1025];
    assert_eq!(refused(&list, &[]), Some((8, 1024)));
    // A wire too many before its table, though that is missing and wrong.
    for tables in [&[][..], &[9]] {
        list[1024] = Record::project(5, 0);
        assert_eq!(refused(&list, tables), Some((8, 1024)));
    }
    list[1024] = Record::input(8, 2);
    assert_eq!(refused(&list, &[]), Some((7, 1024)));
    list[1024] = OUT;
    assert_eq!(refused(&list, &[]), None);
    list.resize(1024 + 256, OUT);
    assert_eq!(refused(&list, &[]), None);
    list.push(OUT);
    assert_eq!(refused(&list, &[]), Some((8, 1280)));
}

#[test]
fn tables_are_judged_entry_by_entry() {
    let list = [THREE, Record::project(2, 0), Record::project(5, 1), OUT];
    assert_eq!(refused(&list, &[0, 1, 0, 4, 3]), None);
    assert_eq!(refused(&list, &[0, 1, 2, 4, 3]), Some((7, 1)));
    assert_eq!(refused(&list, &[0, 1, 0, 4, 5]), Some((7, 2)));
    // Entries run out: those present are judged first.
    assert_eq!(refused(&list, &[0, 1]), Some((14, 1)));
    assert_eq!(refused(&list, &[0, 2]), Some((7, 1)));
    assert_eq!(refused(&list, &[]), Some((14, 1)));
    assert_eq!(refused(&list, &[0, 1, 0, 4]), Some((14, 2)));
    assert_eq!(refused(&list, &[0, 1, 0, 5]), Some((7, 2)));
    // The reader's checks on that record, and the faults of later ones.
    let wrong = [THREE, Record::project(4, 0)];
    assert_eq!(refused(&wrong, &[]), Some((4, 1)));
    let later = [THREE, Record::project(2, 0), Record::add(9, 9)];
    assert_eq!(refused(&later, &[]), Some((14, 1)));
}

#[test]
fn outputs_then_left_over_entries_then_the_buffer() {
    let write = |records: &[Record], tables: &[u8], length: usize| {
        let (mut file, mut words) = (vec![0xEE; length], 77);
        let answer = write(records, tables, &mut file, &mut words);
        if answer.is_err() {
            assert_eq!((file, words), (vec![0xEE; length], 77));
        }
        answer.map_err(|Refusal { number, place }| (number, place))
    };
    assert_eq!(write(&[], &[], 0), Err((9, 0)));
    assert_eq!(write(&[], &[0], 0), Err((9, 0)));
    assert_eq!(write(&[BIT, BIT], &[0], 0), Err((9, 2)));
    assert_eq!(write(&[BIT, OUT], &[0], 0), Err((14, 2)));
    assert_eq!(write(&[BIT, OUT], &[], 0), Err((22, 0)));
    assert_eq!(write(&[BIT, OUT], &[], 15), Err((22, 0)));
    assert_eq!(write(&[BIT, OUT], &[], 16), Ok(()));
    assert_eq!(write(&[BIT, OUT], &[], 99), Ok(()));
}

/// The records and tables that a file comes back to.
fn back(file: &[u8]) -> List {
    let mut list = List::of(&read(file).unwrap());
    let (records_due, tables_due) = (list.records.clone(), list.tables.clone());
    list.records.fill(Record::default());
    list.tables.fill(0xEE);
    records(file, &mut list.records, &mut list.tables).unwrap();
    assert_eq!((&list.records, &list.tables), (&records_due, &tables_due));
    list
}

#[test]
fn accepted_files_come_out_as_the_same_words() {
    let mut rng = Rng::new(1);
    for case in 0..1000 {
        let words = match case % 20 {
            0 => at_limit(&mut rng),
            _ => accepted(&mut rng),
        };
        let list = back(&word::file(&words));
        assert_eq!(words_of(&list.records, &list.tables), Ok(words));
    }
}

#[test]
fn what_is_written_comes_back_and_what_is_refused_the_reader_refuses() {
    let mut rng = Rng::new(1);
    let random = (0..5000).map(|_| random_list(&mut rng));
    let (mut good, mut bad) = (0, 0);
    for list in record_sweep::lists().into_iter().chain(random) {
        match words_of(&list.records, &list.tables) {
            Ok(words) => {
                good += 1;
                assert_eq!(back(&word::file(&words)), list);
            }
            Err(fault) => bad += u32::from(agrees(&list, &fault)),
        }
    }
    assert!(good > 1000 && bad > 1000, "{good} {bad}");
}

/// Whether the reader can be asked about a fault, which it must then find in the same word.
fn agrees(list: &List, fault: &Fault) -> bool {
    let Refusal { number, place } = fault.refusal;
    let fits = list.records.get(place).is_none_or(Record::fits);
    if !(fits && (3..=9).contains(&number)) {
        return false;
    }
    let expected = Refusal {
        number,
        place: fault.words.len() - 1,
    };
    let found = read(&word::file(&fault.words)).map(|_| ());
    assert_eq!(found, Err(expected), "{list:?}");
    true
}

#[test]
fn taking_back_takes_exact_lengths() {
    let list = [BIT, Record::project(3, 0), OUT];
    let file = word::file(&words_of(&list, &[2, 1]).unwrap());
    for count in 0..5 {
        for length in 0..4 {
            let (mut into, mut tables) = (vec![Record::default(); count], vec![9; length]);
            let answer = records(&file, &mut into, &mut tables);
            if (count, length) == (3, 2) {
                assert_eq!(
                    (answer, &into[..], &tables[..]),
                    (Ok(()), &list[..], &[2, 1][..])
                );
                continue;
            }
            let refusal = Refusal {
                number: 14,
                place: 0,
            };
            assert_eq!(answer, Err(refusal));
            assert_eq!(into, vec![Record::default(); count]);
            assert_eq!(tables, vec![9; length]);
        }
    }
    // The file's own faults come first.
    let cut = records(&file[..8], &mut [], &mut []).unwrap_err();
    assert_eq!((cut.number, cut.place), (10, 2));
}

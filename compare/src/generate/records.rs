//! Generators of lists of records, good and faulty.

use super::circuits::{accepted, at_limit};
use super::drawing::Drawing;
use crate::circuit::{MOST_OUTPUTS, MOST_WIRES, read};
use crate::record::{ADD, FIELDS, INPUT, List, OUTPUT, PROJECT, Record, SELECT};
use crate::rng::Rng;
use crate::word;

/// Numbers that fit no field, or not every one.
pub const WIDE: [u32; 14] = [
    256,
    257,
    258,
    1023,
    1024,
    1025,
    1 << 16,
    (1 << 16) + 2,
    (1 << 16) + 3,
    (1 << 16) + 257,
    1 << 31,
    (1 << 31) + 2,
    u32::MAX - 1,
    u32::MAX,
];

/// What a number can be raised by so that it stays the same if it is cut to the bits of a field,
/// to a byte, or to the bits above or below another field's.
pub const RAISES: [u32; 10] = [
    1 << 4,
    1 << 8,
    1 << 10,
    1 << 16,
    1 << 18,
    1 << 20,
    1 << 24,
    1 << 28,
    1 << 30,
    1 << 31,
];

/// A list of any sort; about four in ten are good.
pub fn random_list(rng: &mut Rng) -> List {
    match rng.below(100) {
        0..20 => of_words(&accepted(rng)),
        20..22 => of_words(&at_limit(rng)),
        22..36 => drawn(rng, None),
        36..42 => with_wrong_tables(rng),
        42..70 => changed(rng),
        70..90 => {
            let odds = rng.pick(&[2, 4, 8, 20]);
            drawn(rng, Some(odds))
        }
        90..93 => past_limit(rng),
        93..97 => out_of_order(rng),
        _ => random_fields(rng),
    }
}

/// The list of an accepted circuit.
fn of_words(words: &[u32]) -> List {
    List::of(&read(&word::file(words)).expect("an accepted circuit"))
}

/// A small list drawn record by record; each choice is wrong once in so many times, if at all.
fn drawn(rng: &mut Rng, odds: Option<usize>) -> List {
    let (inputs, gates) = (rng.between(1, 5), rng.between(0, 8));
    // A list with faults may be without outputs too.
    let outputs = rng.between(usize::from(odds.is_none()), 4);
    let mut drawing = Drawing::new(rng, odds);
    drawing.run(inputs, &[INPUT]);
    drawing.run(gates, &[3, 4, 5, 6, 6, 8]);
    drawing.run(outputs, &[OUTPUT]);
    drawing.end()
}

/// A good list but for its tables: entries missing, too large or left over, or several of these;
/// now and then it has no outputs either, so that 9 stands beside.
fn with_wrong_tables(rng: &mut Rng) -> List {
    let mut drawing = Drawing::new(rng, None);
    drawing.run(2, &[INPUT]);
    drawing.run(3, &[PROJECT, PROJECT, ADD]);
    drawing.run(2, &[OUTPUT]);
    let mut list = drawing.end();
    for _ in 0..rng.between(1, 3) {
        change_tables(&mut list.tables, rng);
    }
    if rng.once_in(4) {
        list.records.retain(|record| record.kind != OUTPUT);
    }
    list
}

fn change_tables(tables: &mut Vec<u8>, rng: &mut Rng) {
    let length = tables.len();
    match rng.below(6) {
        0 => tables.truncate(rng.below(length + 1)),
        1 => tables.truncate(length.saturating_sub(1)),
        2 => tables.push(rng.pick(&[0, 1, 255])),
        3 => {
            let count = rng.between(1, 300);
            let more = rng.bytes(count);
            tables.extend(more);
        }
        4 if length > 0 => {
            let at = rng.below(length);
            tables[at] = rng.pick(&[2, 3, 5, 251, 254, 255]);
        }
        _ => tables.clear(),
    }
}

/// A good list with one or more things changed.
fn changed(rng: &mut Rng) -> List {
    let mut list = match rng.below(3) {
        0 => drawn(rng, None),
        _ => of_words(&accepted(rng)),
    };
    for _ in 0..rng.pick(&[1, 1, 1, 2, 2, 3, 5]) {
        let count = list.records.len();
        if count == 0 {
            break;
        }
        let at = rng.below(count);
        match rng.below(12) {
            0..=6 => change_field(&mut list.records[at], rng),
            7 => list.records.swap(at, rng.below(count)),
            8 => drop(list.records.remove(at)),
            9 => list.records.insert(at, list.records[at]),
            _ => change_tables(&mut list.tables, rng),
        }
    }
    list
}

/// Sets a field, used or not, to something else.
fn change_field(record: &mut Record, rng: &mut Rng) {
    if rng.once_in(FIELDS + 1) {
        record.named = any_seats(rng);
        return;
    }
    let mut fields = record.fields_mut();
    let field = &mut fields[rng.below(FIELDS)];
    **field = another(**field, rng);
}

/// Seats to be named by mistake: one or several.
pub(super) fn any_seats(rng: &mut Rng) -> u8 {
    let one = 1 << rng.below(8);
    let any = rng.between(1, 255) as u8;
    rng.pick(&[one, one, any, 255])
}

/// A number that could stand in a field by mistake for this one.
fn another(number: u32, rng: &mut Rng) -> u32 {
    match rng.below(6) {
        0 => rng.below(14) as u32,
        1 => rng.pick(&WIDE),
        2 => rng.next_u32(),
        3 => number.wrapping_add(1),
        _ => number.wrapping_add(rng.pick(&RAISES)),
    }
}

/// As many wires or outputs as there may be, and one more that may have other faults beside.
fn past_limit(rng: &mut Rng) -> List {
    let odds = rng.pick(&[3, 6, 12]);
    let inputs = rng.pick(&[MOST_WIRES, MOST_WIRES - 20, 2]);
    let mut drawing = Drawing::new(rng, None);
    if drawing.rng().once_in(3) {
        drawing.run(2, &[INPUT]);
        drawing.run(MOST_OUTPUTS, &[OUTPUT]);
        drawing.odds(odds);
        drawing.run(1, &[OUTPUT]);
        return drawing.end();
    }
    drawing.run(inputs, &[INPUT]);
    drawing.run(MOST_WIRES - inputs, &[3, 4, 5, 6, 8]);
    drawing.odds(odds);
    drawing.run(1, &[INPUT, 3, 4, 5, PROJECT, PROJECT, SELECT, SELECT]);
    drawing.run(1, &[OUTPUT]);
    drawing.end()
}

/// Good records, but in any order of kinds.
fn out_of_order(rng: &mut Rng) -> List {
    let count = rng.between(1, 6);
    let mut drawing = Drawing::new(rng, None);
    drawing.run(1, &[INPUT]);
    drawing.run(count, &[2, 3, 4, 5, 6, 8, 10, 10]);
    drawing.end()
}

/// Records with nothing right but by chance, and small numbers more often than others.
fn random_fields(rng: &mut Rng) -> List {
    let mut list = List::default();
    for _ in 0..rng.below(6) {
        let mut record = Record::default();
        let share = rng.pick(&[1, 2, 7]);
        for field in record.fields_mut() {
            if rng.once_in(share) {
                *field = another(0, rng);
            }
        }
        if rng.once_in(share) {
            record.named = any_seats(rng);
        }
        list.records.push(record);
    }
    let length = rng.pick(&[0, 0, 1, 5]);
    list.tables = rng.bytes(length);
    list
}

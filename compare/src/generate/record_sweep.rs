//! Lists that differ from a small good one in one place, one after another: every field with every
//! sort of number, every table, every order; then each kind with every combination of faults.

use super::circuits::all_moduli;
use super::records::{RAISES, WIDE};
use crate::circuit::{MOST_OUTPUTS, MOST_WIRES};
use crate::record::{FIELDS, List, Record};

/// A list with a record of every kind.
const GOOD: [Record; 10] = [
    Record::input(0, 2),
    Record::input(1, 3),
    Record::add(1, 1),
    Record::scale(2, 2),
    Record::multiply(3, 1),
    Record::project(5, 0),
    Record::project(2, 1),
    Record::select(6, 1, 4),
    Record::output(7),
    Record::named_output(0x81, 5),
];

/// The tables of its two projections.
const TABLES: [u8; 5] = [4, 3, 0, 1, 1];

/// A record of each kind that is good wherever it is due in that list.
const ONE_OF_EACH: [Record; 7] = [
    Record::input(0, 2),
    Record::add(0, 0),
    Record::scale(1, 0),
    Record::multiply(0, 0),
    Record::project(2, 0),
    Record::select(0, 0, 0),
    Record::output(0),
];

/// All lists of the sweep, the good one first.
pub fn lists() -> Vec<List> {
    let mut lists = vec![list(&GOOD, &TABLES)];
    lists.extend(ends());
    lists.extend(at_limits());
    lists.extend(largest());
    lists.extend(changed_fields());
    lists.extend(changed_tables());
    lists.extend(moved_records());
    lists.extend(byte_fields());
    lists.extend(combined());
    lists
}

fn list(records: &[Record], tables: &[u8]) -> List {
    List {
        records: records.to_vec(),
        tables: tables.to_vec(),
    }
}

/// No record at all, no output, entries left over, and these together.
fn ends() -> Vec<List> {
    let without_outputs = &GOOD[..8];
    let left_over = [&TABLES[..], &[0]].concat();
    vec![
        list(&[], &[]),
        list(&[], &[0]),
        list(without_outputs, &TABLES),
        list(without_outputs, &left_over),
        list(&GOOD, &left_over),
        list(&GOOD[..2], &[]),
        list(&GOOD[8..], &[]),
    ]
}

/// As many wires and outputs as there may be, the last of them of each kind; then one more.
fn at_limits() -> Vec<List> {
    let mut lists = Vec::new();
    for record in &ONE_OF_EACH[..6] {
        // A projection of a bit takes two entries; the others leave none to be taken.
        let entries = if record.kind == 6 { 2 } else { 0 };
        for before in [MOST_WIRES - 1, MOST_WIRES] {
            let mut records = vec![Record::input(0, 2); before];
            records.push(*record);
            records.push(Record::output(before as u32));
            lists.push(list(&records, &vec![1; entries]));
        }
    }
    for wires in [1, MOST_WIRES] {
        for outputs in [MOST_OUTPUTS, MOST_OUTPUTS + 1] {
            let mut records = vec![Record::input(7, 251); wires];
            records.resize(wires + outputs, Record::output(wires as u32 - 1));
            lists.push(list(&records, &[]));
        }
    }
    lists
}

/// The longest tables there can be: as they should be, an entry short, an entry too long, and
/// with the last entry too large.
fn largest() -> Vec<List> {
    let mut records = vec![Record::input(0, 251)];
    records.extend((1..MOST_WIRES as u32).map(|wire| Record::project(251, wire - 1)));
    records.resize(MOST_WIRES + MOST_OUTPUTS, Record::output(1023));
    let length = 251 * (MOST_WIRES - 1);
    let tables: Vec<u8> = (0..length).map(|at| (at * 7 % 251) as u8).collect();
    let mut too_large = tables.clone();
    too_large[length - 1] = 251;
    vec![
        list(&records, &tables),
        list(&records, &tables[1..]),
        list(&records, &[&tables[..], &[0]].concat()),
        list(&records, &too_large),
    ]
}

/// Each field of each record with small numbers, wide ones, and its own raised by bits that a word
/// has no place for; and each record with each seat named, none, two and all.
fn changed_fields() -> Vec<List> {
    let mut lists = Vec::new();
    for (at, record) in GOOD.iter().enumerate() {
        for field in 0..FIELDS {
            let right = *record.clone().fields_mut()[field];
            let raised = RAISES.map(|raise| right + raise);
            for number in (0..14).chain(WIDE).chain(raised) {
                let mut changed = list(&GOOD, &TABLES);
                *changed.records[at].fields_mut()[field] = number;
                lists.push(changed);
            }
        }
        for named in (0..8).map(|seat| 1 << seat).chain([0, 3, 255]) {
            let mut changed = list(&GOOD, &TABLES);
            changed.records[at].named = named;
            lists.push(changed);
        }
    }
    lists
}

/// The good list with tables of every length up to two entries more, all entries good or one of
/// them too large; and with many more.
fn changed_tables() -> Vec<List> {
    let longer = [&TABLES[..], &[0, 0]].concat();
    let mut lists = vec![list(&GOOD, &[TABLES.to_vec(), vec![0; 300]].concat())];
    for length in 0..=longer.len() {
        lists.push(list(&GOOD, &longer[..length]));
        for at in 0..length {
            for image in [2, 5, 255] {
                let mut changed = list(&GOOD, &longer[..length]);
                changed.tables[at] = image;
                lists.push(changed);
            }
        }
    }
    lists
}

/// Each record left out, and a record of each kind put in or put in place of another at each
/// index; after the good ones too.
fn moved_records() -> Vec<List> {
    let mut lists = Vec::new();
    for at in 0..=GOOD.len() {
        let (before, after) = GOOD.split_at(at);
        let rest = after.get(1..).unwrap_or_default();
        lists.push(list(&[before, rest].concat(), &TABLES));
        for record in ONE_OF_EACH {
            lists.push(list(&[before, &[record], after].concat(), &TABLES));
            lists.push(list(&[before, &[record], rest].concat(), &TABLES));
        }
    }
    lists
}

/// Every modulus of an input and of a projection, prime or not; for each prime the constants and
/// images around it; and every choice of the seats that an output names.
fn byte_fields() -> Vec<List> {
    let mut lists = Vec::new();
    for named in 0..=255 {
        let output = Record::named_output(named, 0);
        lists.push(list(&[Record::input(0, 2), output], &[]));
    }
    for modulus in 0..=260 {
        let input = [Record::input(0, modulus), Record::output(0)];
        lists.push(list(&input, &[]));
        lists.push(projected(modulus, [0, 1]));
    }
    for p in all_moduli() {
        for constant in [0, 1, p - 1, p, p + 255] {
            let records = [
                Record::input(0, p),
                Record::scale(constant, 0),
                Record::output(1),
            ];
            lists.push(list(&records, &[]));
        }
        for image in [p as u8 - 1, p as u8, 255] {
            lists.push(projected(p, [0, image]));
        }
    }
    lists
}

fn projected(modulus: u32, images: [u8; 2]) -> List {
    let records = [
        Record::input(0, 2),
        Record::project(modulus, 0),
        Record::output(1),
    ];
    list(&records, &images)
}

/// Each kind with its fields right and wrong in every combination: alone, after an output, as a
/// wire too many, and as both; each time without and with a seat named, which an output alone can
/// have; and then with a field that it does not use.
fn combined() -> Vec<List> {
    let mut lists = Vec::new();
    for (late, full) in [(false, false), (true, false), (false, true), (true, true)] {
        let mut before = before(full);
        let made = before.len() as u32;
        if late {
            before.push(Record::output(0));
        }
        for (record, tables) in combinations(made) {
            lists.push(followed(&before, record, &tables));
            let seated = Record { named: 2, ..record };
            lists.push(followed(&before, seated, &tables));
            if late && full {
                let mut stray = record;
                for field in stray.fields_mut() {
                    *field = (*field).max(1);
                }
                lists.push(followed(&before, stray, &tables));
            }
        }
    }
    lists.extend(outputs_too_many());
    lists
}

/// Four wires, two of modulus 2 and two of modulus 3; or as many as there may be.
fn before(full: bool) -> Vec<Record> {
    let moduli = [2, 2, 3, 3];
    let mut records = moduli.map(|modulus| Record::input(0, modulus)).to_vec();
    if full {
        records.resize(MOST_WIRES, Record::input(0, 2));
    }
    records
}

fn followed(before: &[Record], record: Record, tables: &[u8]) -> List {
    let records = [before, &[record, Record::output(0)]].concat();
    list(&records, tables)
}

/// Records after those wires: fields right, wrong, and wrong but right if they were cut.
fn combinations(made: u32) -> Vec<(Record, Vec<u8>)> {
    let mut records = Vec::new();
    for a in [2, 0, made] {
        for b in [3, 1, made] {
            records.extend([Record::add(a, b), Record::multiply(a, b)]);
            records.extend([0, 2, made].map(|bit| Record::select(bit, a, b)));
        }
    }
    for modulus in [3, 4, 259] {
        records.extend([7, 8, 263].map(|owner| Record::input(owner, modulus)));
    }
    for a in [2, made] {
        records.extend([2, 0, 3, 258].map(|constant| Record::scale(constant, a)));
        records.push(Record::output(a));
    }
    let mut all: Vec<_> = records.iter().map(|record| (*record, vec![])).collect();
    for a in [0, made] {
        for modulus in [5, 4, 261] {
            for tables in [&[4, 3][..], &[4, 5], &[4], &[5], &[4, 3, 0], &[]] {
                all.push((Record::project(modulus, a), tables.to_vec()));
            }
        }
    }
    all
}

/// An output too many that is made or not, with entries left over or not.
fn outputs_too_many() -> Vec<List> {
    let mut records = before(false);
    records.resize(4 + MOST_OUTPUTS, Record::output(2));
    let mut lists = Vec::new();
    for wire in [3, 4, 1027, u32::MAX] {
        for tables in [&[][..], &[0]] {
            lists.push(followed(&records, Record::output(wire), tables));
        }
    }
    lists
}

#[cfg(test)]
mod tests {
    use super::*;
    use crate::writer::words_of;

    #[test]
    fn the_list_of_the_sweep_is_good() {
        assert!(words_of(&GOOD, &TABLES).is_ok());
    }
}

//! What writing and taking back show of the seats that outputs name.

use super::call::{Call, Made, Name};
use super::tally::place_of;
use crate::counts::{Counts, Due};
use compare::record::{OUTPUT, Record};

const ACCEPTED: &str = "accepted with an output that names";
const REFUSED: &str = "2 for seats alone, at";

/// The records that name nobody.
const OTHERS: [&str; 6] = ["input", "add", "scale", "multiply", "project", "select"];

/// How many seats outputs name.
const NAMED: [&str; 4] = ["nobody", "one seat", "several seats", "all eight seats"];

/// What a thorough run must have met.
pub fn due() -> [Due; 2] {
    let names = [Name::Write, Name::Records];
    let accepted = names
        .iter()
        .flat_map(|name| NAMED.map(|named| sort(*name, named)));
    let once = |heading, sorts| Due {
        heading,
        sorts,
        numbers: vec![0],
    };
    [
        once(ACCEPTED, accepted.collect()),
        once(REFUSED, OTHERS.map(String::from).to_vec()),
    ]
}

fn sort(name: Name, named: &str) -> String {
    format!("{named} in {}", name.text())
}

/// Counts a call by the outputs that it took or gave, or by a record that is wrong in its seats alone.
pub fn count(call: &Call, made: &Made, counts: &mut Counts) {
    let answer = made.ours.answer;
    match (call.name, answer.number) {
        (name, 0) => {
            let records = made.ours.loan.records.content();
            for output in records.iter().filter(|record| record.kind == OUTPUT) {
                counts.add(ACCEPTED, sort(name, of_output(output)), 0);
            }
        }
        (Name::Write, 2) if is_wrong_in_seats(&call.records[answer.place]) => {
            counts.add(REFUSED, place_of(call, answer), 0);
        }
        _ => {}
    }
}

fn of_output(output: &Record) -> &'static str {
    match output.named.count_ones() {
        0 => NAMED[0],
        1 => NAMED[1],
        2..=7 => NAMED[2],
        _ => NAMED[3],
    }
}

/// Whether a record would not meet 2 if it named nobody.
fn is_wrong_in_seats(record: &Record) -> bool {
    let without = Record {
        named: 0,
        ..*record
    };
    without.bare() == Some(without)
}

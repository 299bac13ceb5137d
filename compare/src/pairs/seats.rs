//! Calls on circuits whose outputs name seats. For two they change nothing: each side reads every output.

use super::case::Case;
use super::laws::SEATS_PASSED;
use super::step::{NAMES, Name, Step};
use crate::call::ACCEPTED;
use crate::counts::Counts;
use compare::circuit::{Circuit, read};
use compare::generate::named::put_named;
use compare::pair::total_rows;
use compare::rng::Rng;

pub const HEADING: &str = "seats passed over";
pub const DECODED: &str = "decoded for two";

/// Whom all outputs name, by turns.
const NAMED: [&str; 4] = ["nobody", "seat 0 or 1", "seats above 1", "anybody"];

/// What decoding for two takes though garbling for two does not, or n parties would not.
pub const SORTS_OF_DECODED: [&str; 3] = [
    "with a selector",
    "with an owner above 1",
    "with seats above 1 named",
];

/// Of a circuit with more rows the calls are left out, for the sake of the run's time.
const MOST_ROWS: u32 = 1000;

pub fn sorts() -> Vec<String> {
    let sorts = |name: Name| NAMED.map(|named| sort(name, named));
    NAMES.into_iter().flat_map(sorts).collect()
}

fn sort(name: Name, named: &str) -> String {
    format!("{} {named}", name.text())
}

/// Counts a call with this answer, if it is an accepted decoding.
pub fn count(step: &Step, number: u32, counts: &mut Counts) {
    if (step.name, number) != (Name::Decode, 0) {
        return;
    }
    let circuit = read(&step.file).expect("the file is judged before");
    let is = [
        circuit.wires.iter().any(|wire| wire.kind() == 8),
        circuit.owners().any(|owner| owner > 1),
        circuit.outputs.iter().any(|output| output.names_beyond(2)),
    ];
    counts.add_met(DECODED, &SORTS_OF_DECODED, &is, 0);
}

impl Case<'_> {
    /// Makes each call of a round again, and then with outputs that name others.
    pub fn play_seats(&mut self, good: &[Step]) {
        let before = good[0].file.clone();
        let circuit = read(&before).expect("an accepted circuit");
        if total_rows(&circuit) > MOST_ROWS {
            return;
        }
        let named = NAMED[self.turns(1, NAMED.len()).next().expect("one")];
        let file = with_seats(&before, &circuit, named, &mut self.rng);
        for step in good {
            let one = self.make(step).engines;
            let with_others = Step {
                file: file.clone(),
                ..step.clone()
            };
            let other = self.make(&with_others).engines;
            let same = one.loan.buffers == other.loan.buffers
                && one.loan.numbers == other.loan.numbers
                && [one.answer, other.answer] == [ACCEPTED; 2];
            if self.law(SEATS_PASSED, same) {
                let sort = sort(step.name, named);
                self.tally.counts.add(HEADING, sort, 0);
            }
        }
    }
}

/// The circuit with outputs that name such seats.
fn with_seats(before: &[u8], circuit: &Circuit, named: &str, rng: &mut Rng) -> Vec<u8> {
    let mut file = before.to_vec();
    for output in 0..circuit.outputs.len() {
        let seats = match named {
            "nobody" => 0,
            "seat 0 or 1" => rng.between(1, 3),
            "seats above 1" => rng.between(1, 63) << 2,
            _ => rng.below(256),
        };
        put_named(&mut file, circuit, output, seats as u8);
    }
    file
}

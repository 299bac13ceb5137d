//! Calls on circuits with inputs of a third party.

use super::case::Case;
use super::laws::{LOWEST_STRANGER, STRANGERS_TAKEN};
use super::order::put_owner;
use super::step::{NAMES, Name, Step};
use crate::call::{ACCEPTED, Answer};
use compare::circuit::read;

pub const HEADING: &str = "13 by owner 2, 3, ... 7";

/// The owners that are no party of two.
pub const OWNERS: [u32; 6] = [2, 3, 4, 5, 6, 7];

const BESIDE: [&str; 2] = ["alone", "before others"];

pub fn sorts() -> Vec<String> {
    let judging = NAMES.into_iter().filter(|name| name.gives(13));
    let sorts = |name: Name| BESIDE.map(|beside| format!("{} {beside}", name.text()));
    judging.flat_map(sorts).collect()
}

impl Case<'_> {
    /// Makes the calls of a round with a stranger among the owners and perhaps others at higher inputs.
    /// Which owner it is goes by turns.
    pub fn play_owners(&mut self, good: &[Step]) {
        let circuit = read(&good[0].file).expect("an accepted circuit");
        let last = circuit.inputs - 1;
        for owner in self.turns(1, OWNERS.len()) {
            let owner = OWNERS[owner];
            let lowest = self.rng.below(circuit.inputs);
            let others = usize::from(lowest < last) * self.rng.below(3);
            let mut file = good[0].file.clone();
            put_owner(&mut file, &circuit, lowest, owner);
            for _ in 0..others {
                let higher = self.rng.between(lowest + 1, last);
                let other = self.rng.pick(&OWNERS);
                put_owner(&mut file, &circuit, higher, other);
            }
            let due = Answer {
                number: 13,
                place: lowest,
            };
            for step in good {
                let on_file = Step {
                    file: file.clone(),
                    ..step.clone()
                };
                let answer = self.make(&on_file).engines.answer;
                if !step.name.gives(13) {
                    self.law(STRANGERS_TAKEN, answer == ACCEPTED);
                } else if self.law(LOWEST_STRANGER, answer == due) {
                    let sort = format!("{} {}", step.name.text(), BESIDE[others.min(1)]);
                    self.tally.counts.add(HEADING, sort, owner);
                }
            }
        }
    }
}

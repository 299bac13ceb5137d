//! Calls in which one length alone is wrong, by a byte or by a lot.

use super::case::Case;
use super::laws::WRONG_LENGTH;
use super::step::{Step, WITH_BUFFERS};
use crate::call::Answer;

pub const HEADING: &str = "one length wrong, refused by 14";

const WAYS: [&str; 4] = ["a byte shorter", "a byte longer", "empty", "much longer"];

/// How many such calls each case makes.
const CALLS: usize = 4;

const REFUSED: Answer = Answer {
    number: 14,
    place: 0,
};

/// Which call, which of its buffers and which way; each must be met.
fn all() -> Vec<(usize, usize, &'static str)> {
    let mut all = Vec::new();
    for (call, name) in WITH_BUFFERS.iter().enumerate() {
        for buffer in 0..name.buffers().len() {
            all.extend(WAYS.map(|way| (call, buffer, way)));
        }
    }
    all
}

fn sort((call, buffer, way): (usize, usize, &str)) -> String {
    let name = WITH_BUFFERS[call];
    format!("{} {} {way}", name.text(), name.buffers()[buffer])
}

pub fn sorts() -> Vec<String> {
    all().into_iter().map(sort).collect()
}

impl Case<'_> {
    /// Makes calls of those of a round that have buffers.
    pub fn play_lengths(&mut self, good: &[Step]) {
        let all = all();
        for turn in self.turns(CALLS, all.len()) {
            let (call, buffer, way) = all[turn];
            let mut step = good[call].clone();
            let exact = step.buffers[buffer].len();
            let length = match way {
                "a byte shorter" if exact > 0 => exact - 1,
                "a byte longer" => exact + 1,
                "empty" if exact > 0 => 0,
                "much longer" => exact + self.rng.between(2, 600),
                _ => continue,
            };
            step.buffers[buffer].resize(length, 0);
            let answer = self.make(&step).engines.answer;
            if self.law(WRONG_LENGTH, answer == REFUSED) {
                self.tally.counts.add(HEADING, sort(all[turn]), 0);
            }
        }
    }
}

//! Calls on circuits that have selectors.

use super::case::Case;
use super::laws::FIRST_SELECTOR;
use super::step::{NAMES, Name, Step};
use crate::call::Answer;
use compare::generate::selects::with_selects;

pub const HEADING: &str = "26 with selectors";

const COUNTS: [&str; 2] = ["one", "several"];

pub fn sorts() -> Vec<String> {
    let judging = NAMES.into_iter().filter(|name| name.gives(26));
    let sorts = |name: Name| COUNTS.map(|count| format!("{} {count}", name.text()));
    judging.flat_map(sorts).collect()
}

impl Case<'_> {
    /// Makes all calls of a round but decoding, which takes any circuit, on its circuit with selectors put
    /// in. All else that is lent is as it would be without them.
    pub fn play_selectors(&mut self, good: &[Step]) {
        let Some(file) = with_selects(&good[0].file, &mut self.rng) else {
            return;
        };
        // The kind of a word is its four highest bits.
        let kinds = file.iter().skip(3).step_by(4).map(|byte| byte >> 4);
        let selectors: Vec<usize> = (0..)
            .zip(kinds)
            .filter(|at| at.1 == 8)
            .map(|at| at.0)
            .collect();
        let due = Answer {
            number: 26,
            place: selectors[0],
        };
        let count = COUNTS[(selectors.len() - 1).min(1)];
        for step in good.iter().filter(|step| step.name.gives(26)) {
            let step = Step {
                file: file.clone(),
                ..step.clone()
            };
            let answer = self.make(&step).engines.answer;
            if self.law(FIRST_SELECTOR, answer == due) {
                let sort = format!("{} {count}", step.name.text());
                self.tally.counts.add(HEADING, sort, 0);
            }
        }
    }
}

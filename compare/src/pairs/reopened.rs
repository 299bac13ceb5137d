//! A round opened again: with other round numbers than garbling's, and with keys and rows that nobody
//! made. There is nothing to compare keys with, so each opens to something, and the two programs must
//! agree on it.

use super::case::Case;
use super::laws::OPENS_ANYWAY;
use super::play::Round;
use super::step::Step;
use crate::call::ACCEPTED;
use compare::circuit::read;
use compare::generate::round_numbers::{WAYS, others};
use compare::generate::settings::below;

pub const HEADING: &str = "opened to other keys";

const KEYS: &str = "with keys that nobody made";
const ROWS: &str = "with rows that nobody made";

/// The ways in which an opening differs from the round's own; each must come to other keys.
pub fn sorts() -> Vec<String> {
    let ways = WAYS.map(|way| format!("with a round number that differs {way}"));
    ways.into_iter().chain([KEYS.into(), ROWS.into()]).collect()
}

impl Case<'_> {
    pub fn reopen(&mut self, round: &Round) {
        let [.., opening, _] = &round.steps;
        let circuit = read(&opening.file).expect("an accepted circuit");
        for (way, other) in others(opening.round, &mut self.rng) {
            let mut step = opening.clone();
            step.round = other;
            let sort = format!("with a round number that differs {way}");
            self.open_to_others(round, &step, sort);
        }
        for (buffer, sort) in [(0, KEYS), (1, ROWS)] {
            let mut step = opening.clone();
            step.buffers[buffer] = below(&step.moduli(&circuit)[buffer], &mut self.rng);
            self.open_to_others(round, &step, sort.into());
        }
    }

    /// Opens, and decodes what comes of it, which need not be the plain outputs.
    fn open_to_others(&mut self, round: &Round, step: &Step, sort: String) {
        let after = self.make(step).engines;
        if !self.law(OPENS_ANYWAY, after.answer == ACCEPTED) {
            return;
        }
        if after.loan.buffers[2].content() != round.opened.wire_keys {
            self.tally.counts.add(HEADING, sort, 0);
        }
        let externals = after.loan.buffers[3].content();
        let decoding = self.decoding(step, externals, &round.output_masks);
        let decoded = self.decoded(&decoding);
        self.law(OPENS_ANYWAY, decoded.is_some());
    }
}

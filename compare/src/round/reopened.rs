//! A round opened again with other round numbers than garbling's: mostly no multiplier fits, but
//! short keys may open to wrong ones. Which it is, the two programs must agree on.

use super::chain::{Made, Round};
use super::step::{Name, Step};
use crate::call::Answer;
use compare::generate::round_numbers::others;
use compare::rng::Rng;

/// How an opening's number differs from garbling's, and what the answer was.
pub type Reopened = (&'static str, Answer);

/// Opens once for each way in which the number can differ, each time at any party.
pub fn reopen(round: &Round, rng: &mut Rng, make: &mut dyn FnMut(&Step) -> Made) -> Vec<Reopened> {
    let openings = round.steps.iter().filter(|step| step.name == Name::Open);
    let openings: Vec<&Step> = openings.collect();
    // All parties open with the number that garbling was given.
    let ways = others(openings[0].round, rng);
    let mut reopen = |(way, other): (&'static str, u32)| {
        let mut step = rng.pick(&openings).clone();
        step.round = other;
        (way, make(&step).ours.answer)
    };
    ways.into_iter().map(&mut reopen).collect()
}

//! The calls of one case: each is made of both programs, printed if that is asked for, and counted.

use super::laws::UNTOUCHED;
use super::step::{Name, Step};
use super::tally::Tally;
use super::{engine, second};
use crate::call::ACCEPTED;
use crate::round::{self, Made};
use compare::rng::Rng;

pub struct Case<'t> {
    pub number: u64,
    pub rng: Rng,
    pub tally: &'t mut Tally,
    /// Whether each call is printed.
    pub print: bool,
}

impl Case<'_> {
    pub fn make(&mut self, step: &Step) -> Made {
        let made = Made {
            ours: second::run(step),
            engines: engine::run(step),
        };
        self.say(step, &made);
        self.tally.count(self.number, step, &made);
        if made.engines.answer != ACCEPTED {
            self.law(UNTOUCHED, made.engines.loan == step.loan());
        }
        made
    }

    /// Makes a call for n parties: a garbling with the same meter.
    pub fn make_for_parties(&mut self, step: &round::Step) -> Made {
        let made = round::make(step);
        self.say(step, &made);
        self.tally.count_for_parties(self.number, step, &made);
        made
    }

    fn say(&self, step: &dyn std::fmt::Display, made: &Made) {
        if self.print {
            let (ours, engines) = (made.ours.answer, made.engines.answer);
            println!("{step}: second {ours}, engine {engines}");
        }
    }

    /// The decoding of what an opening wrote, with these masks.
    pub fn decoding(&mut self, opening: &Step, externals: &[u8], masks: &[u8]) -> Step {
        let outputs = self.rng.bytes(masks.len());
        Step {
            name: Name::Decode,
            buffers: vec![externals.to_vec(), masks.to_vec(), outputs],
            ..opening.clone()
        }
    }

    /// What the engine decodes, if it does.
    pub fn decoded(&mut self, decoding: &Step) -> Option<Vec<u8>> {
        let after = self.make(decoding).engines;
        let outputs = || after.loan.buffers[2].content().to_vec();
        (after.answer == ACCEPTED).then(outputs)
    }

    /// Counts whether a law holds, and gives it.
    pub fn law(&mut self, law: &'static str, holds: bool) -> bool {
        if self.print && !holds {
            println!("does not hold: {law}");
        }
        self.tally.laws.look(self.number, law, holds);
        holds
    }

    /// What has its turn in this case: so many of all the places of a list, which follow those of the
    /// case before.
    pub fn turns(&self, count: usize, all: usize) -> impl Iterator<Item = usize> + use<> {
        let first = (self.number % all as u64) as usize * count;
        (first..first + count).map(move |at| at % all)
    }
}

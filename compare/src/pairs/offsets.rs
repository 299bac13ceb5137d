//! Calls whose draw has offsets that do not begin with 1.

use super::case::Case;
use super::laws::LOWEST_OFFSET;
use super::step::{Name, Step};
use crate::call::Answer;
use compare::circuit::read;

pub const HEADING: &str = "27 by modulus";
pub const HEADING_OF_FIRSTS: &str = "27 where component 0 of the offset is";

/// What component 0 of an offset can be instead.
const FIRSTS: [&str; 5] = ["0", "0, like all others", "2", "p - 1", "any other"];

/// Whether the offset of a higher modulus is wrong too.
const BESIDE: [&str; 2] = ["alone", "before another"];

const CALLS: [Name; 2] = [Name::Garble, Name::InputKeys];

/// The most moduli of a circuit that have their turn in a case.
const MODULI: usize = 4;

fn sort(name: Name, first: &str, beside: usize) -> String {
    format!("{} {first}, {}", name.text(), BESIDE[beside])
}

/// Each must be met.
pub fn sorts() -> Vec<String> {
    let mut sorts = Vec::new();
    for name in CALLS {
        for first in FIRSTS {
            sorts.extend([0, 1].map(|beside| sort(name, first, beside)));
        }
    }
    sorts
}

/// The calls that must have named each modulus.
pub fn names() -> Vec<String> {
    CALLS.map(|name| name.text().into()).to_vec()
}

impl Case<'_> {
    /// Makes calls of a round's garbling and of its input keys.
    pub fn play_offsets(&mut self, good: &[Step]) {
        let circuit = read(&good[0].file).expect("an accepted circuit");
        let moduli = circuit.moduli();
        // All of them, where there are few.
        let start = self.rng.below(moduli.len());
        for at in 0..moduli.len().min(MODULI) {
            let at = (start + at) % moduli.len();
            for step in good {
                let beside = self.rng.below(2).min(moduli.len() - 1 - at);
                self.play_offset(step, &moduli, at, beside);
            }
        }
    }

    /// The offset of the modulus at this place is wrong, and perhaps a higher one's.
    fn play_offset(&mut self, good: &Step, moduli: &[u8], at: usize, beside: usize) {
        let (k, p) = (good.k as usize, moduli[at]);
        let mut step = good.clone();
        let rng = &mut self.rng;
        let first = match p {
            2 => rng.pick(&FIRSTS[..2]),
            3 => rng.pick(&FIRSTS[..4]),
            _ => rng.pick(&FIRSTS),
        };
        let offset = &mut step.buffers[0][at * k..][..k];
        match first {
            "0" => offset[0] = 0,
            "0, like all others" => offset.fill(0),
            "2" => offset[0] = 2,
            "p - 1" => offset[0] = p - 1,
            _ => offset[0] = rng.between(2, usize::from(p) - 1) as u8,
        }
        if beside == 1 {
            let higher = rng.between(at + 1, moduli.len() - 1);
            step.buffers[0][higher * k] = 0;
        }
        let due = Answer {
            number: 27,
            place: p.into(),
        };
        let answer = self.make(&step).engines.answer;
        if self.law(LOWEST_OFFSET, answer == due) {
            let sort = sort(step.name, first, beside);
            self.tally.counts.add(HEADING_OF_FIRSTS, sort, 0);
            let name = step.name.text();
            self.tally.counts.add(HEADING, name, p.into());
        }
    }
}

//! Decoding on sheets that have something else than 255 where their party may not read.

use super::caller::Caller;
use super::chain::Round;
use super::faults::high;
use super::laws::{LOWEST_COUNTS, UNREAD_PASSED};
use super::step::{Name, Step};
use crate::call::{ACCEPTED, Answer};
use compare::circuit::{Circuit, read};
use compare::rng::Rng;

pub const HEADING: &str = "decoding where a party may not read";

const OTHER_BYTES: &str = "other bytes on its sheet";
const PASSED_OVER: &str = "one too large there, below one that counts";
const EXTERNAL: &str = "an external value too large there";

pub const SORTS: [&str; 3] = [OTHER_BYTES, PASSED_OVER, EXTERNAL];

/// A decoding of a round at a party, and which outputs the party may not read, and may.
struct Decoding<'d> {
    good: &'d Step,
    circuit: &'d Circuit<'d>,
    unread: Vec<usize>,
    read: Vec<usize>,
}

/// Makes such calls at one party that may not read everything, if there is one.
pub fn play(round: &Round, rng: &mut Rng, caller: &mut Caller) {
    let circuit = read(&round.steps[0].file).expect("an accepted circuit");
    let steps = round.steps.iter().filter(|step| step.name == Name::Decode);
    let decodings = steps.map(|good| {
        let may_read = |at: &usize| circuit.outputs[*at].is_for(good.party);
        let (read, unread) = (0..circuit.outputs.len()).partition(may_read);
        Decoding {
            good,
            circuit: &circuit,
            unread,
            read,
        }
    });
    let decodings: Vec<Decoding> = decodings.filter(|one| !one.unread.is_empty()).collect();
    if decodings.is_empty() {
        return;
    }
    let decoding = &decodings[rng.below(decodings.len())];
    let figures = &round.decoded[decoding.good.party as usize];
    decoding.other_bytes(figures, rng, caller);
    decoding.passed_over(rng, caller);
    decoding.external(rng, caller);
}

impl Decoding<'_> {
    /// Any bytes where the party may not read: the figures are the same.
    fn other_bytes(&self, figures: &[u8], rng: &mut Rng, caller: &mut Caller) {
        let mut step = self.good.clone();
        for at in &self.unread {
            step.buffers[1][*at] = rng.next_u32() as u8;
        }
        let after = caller.make(&step).engines;
        let same = after.answer == ACCEPTED && after.loan.buffers[2].content() == figures;
        self.met(OTHER_BYTES, UNREAD_PASSED, same, caller);
    }

    /// A mask too large that is passed over, and a higher one that counts.
    fn passed_over(&self, rng: &mut Rng, caller: &mut Caller) {
        let moduli: Vec<u8> = self.circuit.output_moduli().collect();
        let lowest = rng.pick(&self.unread);
        let higher: Vec<usize> = self
            .read
            .iter()
            .copied()
            .filter(|at| *at > lowest)
            .collect();
        if higher.is_empty() {
            return;
        }
        let counts = rng.pick(&higher);
        let mut step = self.good.clone();
        for at in [lowest, counts] {
            step.buffers[1][at] = high(rng, moduli[at]);
        }
        let due = Answer {
            number: 15,
            place: counts,
        };
        let answer = caller.make(&step).engines.answer;
        self.met(PASSED_OVER, LOWEST_COUNTS, answer == due, caller);
    }

    /// The external value of a wire that is output to others: it is judged as all are.
    fn external(&self, rng: &mut Rng, caller: &mut Caller) {
        let output = self.circuit.outputs[rng.pick(&self.unread)];
        let wire = usize::from(output.wire);
        let mut step = self.good.clone();
        step.buffers[0][wire] = high(rng, self.circuit.modulus(output.wire));
        let due = Answer {
            number: 15,
            place: wire,
        };
        let answer = caller.make(&step).engines.answer;
        self.met(EXTERNAL, LOWEST_COUNTS, answer == due, caller);
    }

    fn met(&self, sort: &'static str, law: &'static str, holds: bool, caller: &mut Caller) {
        caller.law(law, holds);
        if holds {
            caller.tally.counts.add(HEADING, sort, 0);
        }
    }
}

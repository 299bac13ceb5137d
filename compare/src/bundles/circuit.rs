//! A circuit with parts that the engine wrote, played as a whole round: what every party decodes that may
//! read it, joined, is the integer result.

use super::case::Case;
use super::laws::{PART_ROWS, PART_WRITTEN, PLAIN_DECODED, RESULT_JOINED, RESULT_KEPT};
use super::part::{Held, Part, SORTS, Source};
use crate::call::ACCEPTED;
use crate::round;
use compare::bundle::join;
use compare::circuit::{MOST_WIRES, read};
use compare::garble::UNREAD;
use compare::generate::bundle_circuits::Draft;
use compare::generate::bundle_numbers::integer;
use compare::generate::meters::account_of;
use compare::generate::round_numbers::round_number;
use compare::generate::settings::{Setting, cost};
use compare::rng::Rng;

/// What a circuit is made of: how many primes each of its bundles of inputs and each of its parts
/// has, and a bundle of other gates if there is one, and how many inputs and gates there are beside.
struct Plan {
    bundles: Vec<u32>,
    parts: Vec<u32>,
    by_gates: Option<u32>,
    inputs: usize,
    gates: usize,
}

/// A bundle among the outputs: which output is its first.
struct Figure {
    place: usize,
    held: Held,
}

/// Where a garbling would take more permutations, keys have one byte.
const MOST_COST: u64 = 20_000;

impl Case<'_> {
    pub fn play_circuit(&mut self) {
        let mut own = Rng::new(self.rng.next_u64());
        let n = self.parties();
        let mut draft = Draft::new(&mut own, n);
        let plan = self.plan();
        let Some(mut held) = self.bundles_of_inputs(&plan, &mut draft) else {
            return;
        };
        let Some(parts) = self.append_parts(&plan, &mut draft, &mut held) else {
            return;
        };
        let figures = self.outputs(&held, &mut draft);
        let (file, values) = draft.end();
        if !self.accepted(&file) {
            return;
        }
        let setting = self.setting(file, values, n);
        let right = self.play_round(&setting, &figures);
        self.tally.count_round(right, &parts);
    }

    fn parties(&mut self) -> u32 {
        match self.rng.below(10) {
            0 => self.rng.between(2, 8) as u32,
            1..4 => 3,
            _ => 2,
        }
    }

    /// Two or three bundles, one of the case's own number of primes and one of as many or more, so
    /// that there are two to be taken by a part; now and then a bundle of other gates; and one to
    /// three parts, the first of that number. Every fortieth time the last part makes the last wire
    /// that there may be, and has that number too.
    fn plan(&mut self) -> Plan {
        let r = self.r() as usize;
        let rng = &mut self.rng;
        let mut bundles = vec![r, rng.between(r, 10)];
        if rng.once_in(3) {
            bundles.push(rng.between(2, 10));
        }
        let mut parts = vec![r];
        for _ in 0..rng.below(3) {
            let fewer = rng.between(2, r);
            parts.push(rng.pick(&[r, r, fewer]));
        }
        let by_gates = rng.once_in(4).then(|| rng.between(r, 10));
        let (mut inputs, mut gates) = (rng.below(5), rng.below(5));
        if self.number % 40 == 39 {
            *parts.last_mut().expect("one part or more") = r;
            let made: usize = bundles.iter().chain(&parts).chain(&by_gates).sum();
            (inputs, gates) = (MOST_WIRES - made, 0);
        }
        let [bundles, parts] = [bundles, parts].map(|all| all.iter().map(|r| *r as u32).collect());
        Plan {
            bundles,
            parts,
            by_gates: by_gates.map(|r| r as u32),
            inputs,
            gates,
        }
    }

    /// Bundles of inputs with the residues that the engine makes of integers, and the other inputs
    /// before, between and after them. There are none where the engine does not split one.
    fn bundles_of_inputs(&mut self, plan: &Plan, draft: &mut Draft) -> Option<Vec<Held>> {
        let mut left = plan.inputs;
        let mut held = Vec::new();
        for r in &plan.bundles {
            let some = self.rng.below(left + 1);
            left -= some;
            draft.inputs(some);
            let integer = integer(*r, &mut self.rng);
            held.push(Held {
                bundle: draft.bundle(&self.split(*r, integer)?),
                integer: integer.into(),
                source: Source::Inputs,
            });
        }
        draft.inputs(left);
        Some(held)
    }

    /// The parts as the engine writes them, each after some of the other gates, and before one of
    /// them the bundle of gates. What sort the first part is of goes by turns, so that no sort is
    /// left to chance. There are none where the engine does not write one.
    fn append_parts(
        &mut self,
        plan: &Plan,
        draft: &mut Draft,
        held: &mut Vec<Held>,
    ) -> Option<Vec<Part>> {
        let turn = self.number / 9 % SORTS.len() as u64;
        let mut sort = SORTS[turn as usize];
        let mut left = plan.gates;
        let mut parts = Vec::new();
        let place = self.rng.below(plan.parts.len());
        for (at, r) in plan.parts.iter().enumerate() {
            let some = self.rng.below(left + 1);
            left -= some;
            draft.gates(some);
            let by_gates = plan.by_gates.filter(|_| at == place);
            held.extend(by_gates.and_then(|r| bundle_of_gates(r, draft)));
            let part = Part::drawn(sort, draft.next_bundle(*r), held, &mut self.rng);
            sort = self.rng.pick(&SORTS);
            let words = self.written(&part)?;
            let before = self.rows(&draft.file_so_far());
            held.push(Held {
                bundle: draft.part(*r, &words),
                integer: part.integer(),
                source: Source::Part,
            });
            let due = before.map(|before| before + part.rows());
            let rows = self.rows(&draft.file_so_far());
            self.law(PART_ROWS, rows.is_some() && rows == due);
            parts.push(part);
        }
        draft.gates(left);
        Some(parts)
    }

    /// The words of a part as the engine writes them.
    fn written(&mut self, part: &Part) -> Option<Vec<u32>> {
        let call = part.call(&mut self.rng);
        let after = self.make(&call).engines;
        let words = after.words().filter(|_| after.answer == ACCEPTED);
        self.law(PART_WRITTEN, words.is_some());
        words
    }

    /// Outputs of all bundles that parts made, of some others, and of any wires between them.
    fn outputs(&mut self, held: &[Held], draft: &mut Draft) -> Vec<Figure> {
        let mut figures = Vec::new();
        for held in held {
            draft.outputs(self.rng.below(3));
            if held.source == Source::Part || self.rng.once_in(2) {
                figures.push(Figure {
                    place: draft.outputs_of(held.bundle),
                    held: *held,
                });
            }
        }
        draft.outputs(self.rng.below(3));
        figures
    }

    /// A round of this circuit, with these values of its inputs.
    fn setting(&mut self, file: Vec<u8>, values: Vec<u8>, n: u32) -> Setting {
        let rows = read(&file).expect("accepted by both").counts().rows;
        let mut k = match self.rng.below(12) {
            0 => self.rng.between(1, 128) as u32,
            _ => self.rng.between(1, 3) as u32,
        };
        if cost(rows, n, k) > MOST_COST {
            k = 1;
        }
        let round = round_number(self.number, &mut self.rng);
        let numbers = (n, k, round, account_of(self.number));
        Setting {
            values,
            ..Setting::new(file, numbers, &mut self.rng)
        }
    }

    /// Plays the round; whether all went well, and the bytes of every party that may read a figure join
    /// to its integer.
    fn play_round(&mut self, setting: &Setting, figures: &[Figure]) -> bool {
        let before = self.tally.wrong();
        let mut own = Rng::new(self.rng.next_u64());
        let round = round::play(setting, &mut own, &mut |step| self.make_step(step));
        self.law(PLAIN_DECODED, round.right);
        let circuit = read(&setting.file).expect("accepted by both");
        for (party, decoded) in (0..).zip(&round.decoded) {
            for Figure { place, held } in figures {
                let r = held.bundle.r;
                let residues = &decoded[*place..][..r as usize];
                // A bundle's outputs are all for the same parties.
                if circuit.outputs[*place].is_for(party) {
                    let joined = self.join(r, residues);
                    let holds = joined.map(u128::from) == Some(held.integer);
                    self.law(RESULT_JOINED, holds);
                } else {
                    let nothing = residues.iter().all(|byte| *byte == UNREAD);
                    self.law(RESULT_KEPT, nothing);
                }
            }
        }
        self.tally.wrong() == before
    }
}

/// A bundle of gates that are no part's, and the integer that it carries by plain evaluation. It is
/// of no use where the engine has written a part that is wrong; then the circuit shows that.
fn bundle_of_gates(r: u32, draft: &mut Draft) -> Option<Held> {
    let bundle = draft.bundle_of_gates(r);
    let mut integer = 0;
    join(r, &draft.values_of(bundle)?, &mut integer).ok()?;
    Some(Held {
        bundle,
        integer: integer.into(),
        source: Source::Gates,
    })
}

//! What a run has met.

use super::difference::Difference;
use super::due::{self, KEY_LENGTHS, NUMBERS, ROUND_NUMBERS, WITH_ROWS};
use super::laws::LAWS;
use super::order::choices;
use super::play::Round;
use super::step::{NAMES, Name, Step};
use super::{garblings, gates, seats};
use crate::counts::Counts;
use crate::round::laws::Laws;
use crate::round::{self, Made};
use crate::smallest::Smallest;
use compare::circuit::read;
use compare::generate::pair_settings::PairSetting;
use std::collections::BTreeMap;
use std::process::ExitCode;

/// A run of this many cases must meet every refusal that each call can give, every choice of its
/// faults, all that is counted, and each law.
const THOROUGH: u64 = 1000;

#[derive(Default)]
pub struct Tally {
    calls: u64,
    differences: u64,
    rounds: u64,
    wrong_rounds: u64,
    passed: u64,
    failed: u64,
    /// How often each call gave each number, 0 where it was accepted.
    met: BTreeMap<(Name, u32), u64>,
    /// How often each call was made with each choice of its faults, and the first of them was named.
    choices: BTreeMap<(Name, Vec<u32>), u64>,
    pub counts: Counts,
    pub laws: Laws,
    smallest: Smallest<Difference>,
    smallest_for_parties: Smallest<round::Difference>,
}

impl Tally {
    /// Counts a call, and keeps it if the two programs differ.
    pub fn count(&mut self, case: u64, step: &Step, made: &Made) {
        self.calls += 1;
        let number = made.ours.answer.number;
        *self.met.entry((step.name, number)).or_default() += 1;
        garblings::count(step, number, &mut self.counts);
        seats::count(step, number, &mut self.counts);
        if made.ours != made.engines {
            self.differences += 1;
            self.smallest.keep(Difference {
                case,
                step: step.clone(),
                made: made.clone(),
            });
        }
    }

    /// Counts a call for n parties, and keeps it if the two programs differ.
    pub fn count_for_parties(&mut self, case: u64, step: &round::Step, made: &Made) {
        self.calls += 1;
        if made.ours != made.engines {
            self.differences += 1;
            self.smallest_for_parties.keep(round::Difference {
                case,
                step: step.clone(),
                made: made.clone(),
            });
        }
    }

    /// Counts a call into which these faults were put, of which the first was named.
    pub fn count_choice(&mut self, name: Name, faults: Vec<u32>) {
        *self.choices.entry((name, faults)).or_default() += 1;
    }

    /// Counts a whole round. Where there are no rows no pad is made, so that key length, round number
    /// and account show nothing and are not counted.
    pub fn count_round(&mut self, setting: &PairSetting, round: &Round) {
        self.rounds += 1;
        if !round.right {
            self.wrong_rounds += 1;
            return;
        }
        let circuit = read(&setting.file).expect("an accepted circuit");
        let is = gates::of_circuit(&circuit);
        let sorts = gates::SORTS_OF_CIRCUITS;
        self.counts.add_met(gates::CIRCUITS, &sorts, &is, 0);
        if setting.rows() == 0 {
            return;
        }
        self.counts.add(KEY_LENGTHS, WITH_ROWS, setting.k);
        for (sort, _) in NUMBERS.into_iter().filter(|(_, is)| is(setting.round)) {
            self.counts.add(ROUND_NUMBERS, sort, 0);
        }
        let [_, garbling, ..] = &round.steps;
        let heading = garblings::ROUNDS_BY_ACCOUNT;
        garblings::count_account(garbling, 0, heading, &mut self.counts);
    }

    /// All that went wrong so far. A round is wrong where something in it is.
    pub fn wrong(&self) -> u64 {
        self.differences + self.wrong_rounds + self.laws.broken()
    }

    /// Counts a case: it passed if nothing went wrong since the tally stood so.
    pub fn close_case(&mut self, before: u64) {
        if self.wrong() == before {
            self.passed += 1;
        } else {
            self.failed += 1;
        }
    }

    pub fn print_differences(&self, seed: u64) {
        for difference in self.smallest.shown() {
            difference.print(seed);
        }
        for difference in self.smallest_for_parties.shown() {
            difference.print("pair", seed);
        }
        self.laws.print_broken("pair", seed);
    }

    /// Prints the counts; the run failed if anything is wrong, or if a long run missed something.
    pub fn report(mut self) -> ExitCode {
        let count = self.passed + self.failed;
        let mut missed = Vec::new();
        for name in NAMES {
            missed.extend(self.line(name));
            missed.extend(self.line_of_choices(name));
        }
        for due in due::all() {
            missed.extend(self.counts.lines(&due));
        }
        missed.extend(self.laws.lines(&LAWS));
        self.failed += self.laws.unlisted(&LAWS);
        println!(
            "{} rounds, {} of them wrong; {} calls, {} differences",
            self.rounds, self.wrong_rounds, self.calls, self.differences
        );
        if count >= THOROUGH && !missed.is_empty() {
            println!("never met: {}", missed.join(", "));
            self.failed += 1;
        }
        println!("{} passed, {} failed", self.passed, self.failed);
        if self.failed > 0 {
            ExitCode::FAILURE
        } else {
            ExitCode::SUCCESS
        }
    }

    /// Prints how often a call gave each number, and gives those it never gave.
    fn line(&self, name: Name) -> Vec<String> {
        let times = |number: u32| self.met.get(&(name, number)).copied().unwrap_or_default();
        let numbers: Vec<u32> = (0..=10).chain(name.refusals().iter().copied()).collect();
        let counts = numbers[1..]
            .iter()
            .map(|at| format!("{at}: {}", times(*at)));
        let counts: Vec<String> = counts.collect();
        println!(
            "{}: accepted {}; refused {}",
            name.text(),
            times(0),
            counts.join(", ")
        );
        let never = numbers.into_iter().filter(|number| times(*number) == 0);
        never.map(|at| format!("{} {at}", name.text())).collect()
    }

    /// Prints how many choices of a call's faults were met, and gives those that never were.
    fn line_of_choices(&self, name: Name) -> Vec<String> {
        let all = choices(name).count();
        let met = |faults: &Vec<u32>| self.choices.contains_key(&(name, faults.clone()));
        let never: Vec<Vec<u32>> = choices(name).filter(|faults| !met(faults)).collect();
        let found = all - never.len();
        println!("  {found} of {all} choices of faults, the first named");
        let missed = never
            .iter()
            .map(|faults| format!("{} with {faults:?}", name.text()));
        missed.collect()
    }
}

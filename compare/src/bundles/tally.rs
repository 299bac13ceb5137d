//! What a run has met.

use super::call::{Call, Made, NAMES, Name};
use super::counts::{ALL, Counts, Due, always};
use super::difference::Difference;
use super::laws::LAWS;
use super::part::{Part, SORTS, Sort, Source};
use super::sweep::PIECES;
use crate::round::{self, Step};
use crate::smallest::Smallest;
use compare::circuit::MOST_WIRES;
use compare::generate::bundle_numbers::primes_of;
use std::collections::BTreeMap;
use std::process::ExitCode;

/// A run of this many cases must meet every refusal of each call, and with every number of primes
/// what the tally counts by that number.
const THOROUGH: u64 = 1000;

#[derive(Default)]
pub struct Tally {
    pub calls: u64,
    differences: u64,
    rounds: u64,
    wrong_rounds: u64,
    passed: u64,
    failed: u64,
    /// How often each call gave each refusal.
    refused: BTreeMap<(Name, u32), u64>,
    /// How often each call was accepted.
    accepted: Counts,
    /// Where the constants of accepted scales were 0.
    zeros: Counts,
    /// How many right rounds had a part of each sort.
    parts: Counts,
    /// How many calls each piece of the sweep made.
    pub swept: Counts,
    /// How often each law was looked at.
    laws: Counts,
    /// Of each law that did not hold, how often, and the first such case.
    broken: BTreeMap<&'static str, (u64, u64)>,
    smallest: Smallest<Difference>,
    smallest_steps: Smallest<round::Difference>,
}

const NO_ZERO: &str = "modulo none";
const ALL_ZERO: &str = "modulo all";

fn zero_at(p: u32) -> String {
    format!("modulo {p}")
}

/// Where a constant is 0.
fn zeros_of(r: u32, constant: u64) -> Vec<String> {
    let mut primes = primes_of(r);
    primes.retain(|p| constant.is_multiple_of(u64::from(*p)));
    let mut zeros: Vec<String> = primes.iter().map(|p| zero_at(*p)).collect();
    match primes.len() {
        0 => zeros.push(NO_ZERO.into()),
        all if all == r as usize => zeros.push(ALL_ZERO.into()),
        _ => {}
    }
    zeros
}

/// Where constants must have been 0: modulo each prime, with as many primes as have it among them.
fn due_zeros() -> Vec<Due> {
    let own = |(r, p): (u32, u32)| (zero_at(p), r.max(2)..=10);
    let primes = (1..).zip(primes_of(10)).map(own);
    primes.chain(always(&[NO_ZERO, ALL_ZERO])).collect()
}

const ON_GATES: &str = "a part on a bundle of gates";
const LAST_WIRE: &str = "a part that makes the last wire there may be";

/// What a part counts as: its sort, what it works on, and whether there is no wire after it.
fn sorts_of(part: &Part) -> Vec<String> {
    let mut sorts = vec![part.sort.text().into()];
    if part.is_on(Source::Part) {
        sorts.push(later(part.sort.name()));
    }
    if part.is_on(Source::Gates) {
        sorts.push(ON_GATES.into());
    }
    if part.made.first + part.made.r == MOST_WIRES as u32 {
        sorts.push(LAST_WIRE.into());
    }
    sorts
}

fn later(name: Name) -> String {
    format!("{} on what another part made", name.text())
}

fn due_sorts() -> Vec<Due> {
    let later = [Name::Add, Name::Multiply, Name::Scale].map(|name| (later(name), ALL));
    let sorts = always(&SORTS.map(Sort::text)).into_iter().chain(later);
    sorts.chain(always(&[ON_GATES, LAST_WIRE])).collect()
}

impl Tally {
    /// Counts a call, and keeps it if the two programs differ.
    pub fn count(&mut self, case: u64, call: &Call, made: &Made) {
        self.calls += 1;
        match made.ours.answer.number {
            0 => self.count_accepted(call),
            number => *self.refused.entry((call.name, number)).or_default() += 1,
        }
        if made.ours != made.engines {
            self.differences += 1;
            self.smallest.keep(Difference {
                case,
                call: call.clone(),
                made: made.clone(),
            });
        }
    }

    fn count_accepted(&mut self, call: &Call) {
        self.accepted.add(call.name.text(), call.r, 1);
        if call.name == Name::Scale {
            for zeros in zeros_of(call.r, call.integer) {
                self.zeros.add(&zeros, call.r, 1);
            }
        }
    }

    /// Counts a call of a round, and keeps it if the two programs differ.
    pub fn count_step(&mut self, case: u64, step: &Step, made: &round::Made) {
        self.calls += 1;
        if made.ours != made.engines {
            self.differences += 1;
            self.smallest_steps.keep(round::Difference {
                case,
                step: step.clone(),
                made: made.clone(),
            });
        }
    }

    /// Counts a whole round of a circuit with these parts.
    pub fn count_round(&mut self, right: bool, parts: &[Part]) {
        self.rounds += 1;
        if !right {
            self.wrong_rounds += 1;
            return;
        }
        for part in parts {
            for sort in sorts_of(part) {
                self.parts.add(&sort, part.made.r, 1);
            }
        }
    }

    /// Counts whether a law holds, in a case that is about so many primes.
    pub fn law(&mut self, (case, r): (u64, u32), law: &'static str, holds: bool) {
        self.laws.add(law, r, 1);
        if !holds {
            self.broken.entry(law).or_insert((0, case)).0 += 1;
        }
    }

    /// All that went wrong so far. A round is wrong where something in it is.
    pub fn wrong(&self) -> u64 {
        let broken: u64 = self.broken.values().map(|(times, _)| times).sum();
        self.differences + broken
    }

    /// Counts a case: it passed if nothing went wrong since the tally stood so.
    pub fn close_case(&mut self, before: u64) {
        if self.wrong() == before {
            self.passed += 1;
        } else {
            self.failed += 1;
        }
    }

    pub fn print_differences(&self, seed: u64) {
        for difference in self.smallest.shown() {
            difference.print(seed);
        }
        for difference in self.smallest_steps.shown() {
            difference.print("bundle", seed);
        }
        for (law, (times, first)) in &self.broken {
            println!("does not hold {times} times: {law}");
            println!("  from: compare bundle {seed} {first}");
        }
    }

    /// Prints the counts; the run failed if anything is wrong, or if a long run missed something.
    pub fn report(mut self) -> ExitCode {
        let count = self.passed + self.failed;
        let mut missed = Vec::new();
        for name in NAMES {
            missed.extend(self.line(name));
        }
        missed.extend(self.lines_by_primes());
        println!(
            "{} rounds, {} of them wrong; {} calls, {} differences",
            self.rounds, self.wrong_rounds, self.calls, self.differences
        );
        if count >= THOROUGH && !missed.is_empty() {
            println!("never met: {}", missed.join(", "));
            self.failed += 1;
        }
        println!("{} passed, {} failed", self.passed, self.failed);
        if self.failed > 0 {
            ExitCode::FAILURE
        } else {
            ExitCode::SUCCESS
        }
    }

    /// Prints how often a call gave each refusal, and gives those it never gave.
    fn line(&self, name: Name) -> Vec<String> {
        let times = |number: u32| self.refused.get(&(name, number)).copied().unwrap_or(0);
        let mut counts = Vec::new();
        let mut missed = Vec::new();
        for number in name.refusals() {
            counts.push(format!("{number}: {}", times(*number)));
            if times(*number) == 0 {
                missed.push(format!("{} {number}", name.text()));
            }
        }
        println!("{}: refused {}", name.text(), counts.join(", "));
        missed
    }

    /// Prints what is counted by the number of primes, and gives what was never met.
    fn lines_by_primes(&self) -> Vec<String> {
        println!("with 2, 3, ... 10 primes");
        let names = always(&NAMES.map(Name::text));
        let swept = PIECES.map(|(piece, numbers)| (piece.into(), numbers));
        [
            self.accepted.lines("accepted", &names),
            self.zeros.lines("accepted scale by 0", &due_zeros()),
            self.parts.lines("right rounds with", &due_sorts()),
            self.swept.lines("swept", &swept),
            self.laws.lines("looked at:", &always(&LAWS)),
        ]
        .concat()
    }
}

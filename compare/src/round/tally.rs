//! What a run has met.

use super::account_tally::AccountTally;
use super::carry::{self, Carried, Carry};
use super::chain::{Made, Round};
use super::difference::Difference;
use super::laws::{LAWS, Laws};
use super::reopened::Reopened;
use super::several::sorts;
use super::step::{NAMES, Name, Step};
use super::{copies, due, readers, squares};
use crate::counts::Counts;
use crate::smallest::Smallest;
use compare::generate::round_numbers::{WAYS, has_different_bytes};
use compare::generate::settings::Setting;
use std::collections::BTreeMap;
use std::process::ExitCode;

/// A run of this many cases must meet every refusal that each call can give, 16 and 18 with several
/// bytes too large, the round numbers below, what is counted of accounts, of squares, of copies and of
/// the seats that outputs name, and each law.
const THOROUGH: u64 = 1000;

/// A sort of round numbers, by its name.
type Numbers = (&'static str, fn(u32) -> bool);

/// The sorts of round numbers with which whole rounds must be played.
const NUMBERS: [Numbers; 4] = [
    ("0", |round| round == 0),
    ("1", |round| round == 1),
    ("2^32 - 1", |round| round == u32::MAX),
    ("four different bytes", has_different_bytes),
];

#[derive(Default)]
pub struct Tally {
    pub calls: u64,
    pub differences: u64,
    rounds: u64,
    wrong_rounds: u64,
    passed: u64,
    failed: u64,
    /// How often each call gave each number, 0 where it was accepted.
    met: BTreeMap<(Name, u32), u64>,
    /// How often a call was refused by 16 or 18 with several bytes too large, and where these were.
    several: BTreeMap<(Name, &'static str), u64>,
    /// How many rounds were right with a number of each sort.
    numbers: BTreeMap<&'static str, u64>,
    /// How often opening gave each number where the round number was not garbling's, by the way in
    /// which it differed.
    reopened: BTreeMap<(&'static str, u32), u64>,
    pub accounts: AccountTally,
    /// What was met of squares, of copies, of old layouts and of the seats that outputs name.
    pub counts: Counts,
    pub laws: Laws,
    smallest: Smallest<Difference>,
    smallest_carries: Smallest<carry::Difference>,
}

impl Tally {
    /// Counts a call, and keeps it if the two programs differ.
    pub fn count(&mut self, case: u64, step: &Step, made: &Made) {
        self.calls += 1;
        let number = made.ours.answer.number;
        *self.met.entry((step.name, number)).or_default() += 1;
        for (sort, is) in sorts(step, number) {
            *self.several.entry((step.name, sort)).or_default() += u64::from(is);
        }
        self.accounts.count_call(step, number);
        if made.ours == made.engines {
            return;
        }
        self.differences += 1;
        self.smallest.keep(Difference {
            case,
            step: step.clone(),
            made: made.clone(),
        });
    }

    /// Counts an old total carried over, and keeps it if the two programs differ.
    pub fn count_carry(&mut self, case: u64, carry: &Carry, carried: &Carried) {
        self.calls += 1;
        self.accounts.count_carry(carry);
        if carried.ours != carried.engines {
            self.differences += 1;
            self.smallest_carries.keep(carry::Difference {
                case,
                carry: *carry,
                carried: *carried,
            });
        }
    }

    /// Counts a whole round, and the openings of it with other round numbers. Where there are no
    /// rows no pad is made, so that the numbers show nothing and are not counted.
    pub fn count_round(&mut self, setting: &Setting, round: &Round, reopened: &[Reopened]) {
        let right = round.right;
        self.rounds += 1;
        self.wrong_rounds += u64::from(!right);
        if right {
            readers::count(setting, &mut self.counts);
            squares::count(setting, &mut self.counts);
            copies::count(setting, &mut self.counts);
        }
        if setting.rows() == 0 {
            return;
        }
        if right {
            self.accounts.count_round(&round.steps[0]);
        }
        for (sort, is) in NUMBERS {
            let so = right && is(setting.round);
            *self.numbers.entry(sort).or_default() += u64::from(so);
        }
        for (way, answer) in reopened {
            *self.reopened.entry((way, answer.number)).or_default() += 1;
        }
    }

    /// Counts a case: it passed if nothing went wrong since the tally stood so.
    pub fn close_case(&mut self, before: u64) {
        if self.wrong() == before {
            self.passed += 1;
        } else {
            self.failed += 1;
        }
    }

    /// All that went wrong so far.
    pub fn wrong(&self) -> u64 {
        self.differences + self.wrong_rounds + self.laws.broken()
    }

    pub fn print_differences(&self, seed: u64) {
        for difference in self.smallest.shown() {
            difference.print("round", seed);
        }
        for difference in self.smallest_carries.shown() {
            difference.print(seed);
        }
        self.laws.print_broken("round", seed);
    }

    /// Prints the counts; the run failed if anything is wrong, or if a long run missed a refusal, a
    /// sort of several bytes too large, a sort of round numbers, something of accounts, of squares, of
    /// copies or of named seats, or a law.
    pub fn report(mut self) -> ExitCode {
        let count = self.passed + self.failed;
        let mut missed = Vec::new();
        for name in NAMES {
            missed.extend(self.line(name));
        }
        missed.extend(self.line_of_several());
        missed.extend(self.line_of_numbers());
        missed.extend(self.line_of_reopened());
        missed.extend(self.accounts.lines());
        for due in due::all() {
            missed.extend(self.counts.lines(&due));
        }
        missed.extend(self.laws.lines(&LAWS));
        self.failed += self.laws.unlisted(&LAWS);
        println!(
            "{} rounds, {} of them wrong; {} calls, {} differences",
            self.rounds, self.wrong_rounds, self.calls, self.differences
        );
        if count >= THOROUGH && !missed.is_empty() {
            println!("never met: {}", missed.join(", "));
            self.failed += 1;
        }
        println!("{} passed, {} failed", self.passed, self.failed);
        if self.failed > 0 {
            ExitCode::FAILURE
        } else {
            ExitCode::SUCCESS
        }
    }

    /// Prints how often a call gave each number, and gives those it never gave.
    fn line(&self, name: Name) -> Vec<String> {
        let times = |number: u32| self.met.get(&(name, number)).copied().unwrap_or_default();
        print!("{}: accepted {}; refused", name.text(), times(0));
        let file: u64 = (1..=10).map(times).sum();
        print!(" 1-10: {file}");
        let mut missed = Vec::new();
        for number in name.refusals() {
            print!(", {number}: {}", times(*number));
            if times(*number) == 0 {
                missed.push(format!("{} {number}", name.text()));
            }
        }
        println!();
        missed
    }

    /// Prints how often several bytes were too large, and gives the sorts never met. Those of a
    /// refusal that was never met are not listed: it is missed itself.
    fn line_of_several(&self) -> Vec<String> {
        let line = |((name, sort), times): (&(Name, &str), &u64)| {
            format!("{} {sort}: {times}", name.text())
        };
        let counts: Vec<String> = self.several.iter().map(line).collect();
        println!("several bytes too large: {}", counts.join(", "));
        let never = self.several.iter().filter(|(_, times)| **times == 0);
        never
            .map(|((name, sort), _)| format!("{}, several bytes {sort}", name.text()))
            .collect()
    }

    /// Prints how many rounds were right with each sort of number, and gives the sorts never met.
    fn line_of_numbers(&self) -> Vec<String> {
        let times = |sort: &str| self.numbers.get(sort).copied().unwrap_or_default();
        let sorts = NUMBERS.map(|(sort, _)| sort);
        let counts = sorts.map(|sort| format!("{sort}: {}", times(sort)));
        println!("right rounds by number: {}", counts.join(", "));
        let never = sorts.into_iter().filter(|sort| times(sort) == 0);
        never.map(|sort| format!("round number {sort}")).collect()
    }

    /// Prints how opening came out where its round number was not garbling's, and gives the ways by
    /// which it was never refused or never accepted.
    fn line_of_reopened(&self) -> Vec<String> {
        let times = |way, number| self.reopened.get(&(way, number)).copied();
        let mut counts = Vec::new();
        let mut missed = Vec::new();
        for way in WAYS {
            let [refused, accepted] = [20, 0].map(|number| times(way, number).unwrap_or_default());
            counts.push(format!("{way}: 20 {refused}, accepted {accepted}"));
            if refused == 0 || accepted == 0 {
                missed.push(format!("open with another round number, {way}"));
            }
        }
        println!("open with another round number {}", counts.join("; "));
        missed
    }
}

//! What a run has met.

use super::call::{Call, Made, Name};
use super::difference::Difference;
use super::seats;
use crate::call::Answer;
use crate::counts::Counts;
use crate::smallest::Smallest;
use std::collections::BTreeMap;
use std::process::ExitCode;

/// A run of this many cases must meet every refusal that writing can give, at every sort of
/// record, what is counted of named seats, and the refusal of wrong lengths in taking back.
const THOROUGH: u64 = 6000;

/// Where writing refuses, and by which numbers it can there.
const REFUSALS: [(&str, &[u32]); 10] = [
    ("input", &[2, 3, 4, 7, 8]),
    ("add", &[2, 3, 5, 6, 8]),
    ("scale", &[2, 3, 5, 7, 8]),
    ("multiply", &[2, 3, 5, 6, 8]),
    ("project", &[2, 3, 4, 5, 7, 8, 14]),
    ("select", &[2, 3, 5, 6, 8]),
    ("output", &[2, 5, 8]),
    ("another kind", &[2]),
    ("end of the list", &[9, 14]),
    ("buffer", &[22]),
];

#[derive(Default)]
pub struct Tally {
    calls: u64,
    differences: u64,
    passed: u64,
    failed: u64,
    /// How often writing gave each number, and where.
    written: BTreeMap<(&'static str, u32), u64>,
    /// How often taking back gave each number.
    taken: BTreeMap<u32, u64>,
    /// What was met of the seats that outputs name.
    counts: Counts,
    smallest: Smallest<Difference>,
    /// The laws: how often each was looked at, how often it did not hold, and the first such case.
    laws: BTreeMap<&'static str, (u64, u64, u64)>,
}

impl Tally {
    /// Counts a call, and keeps it if the two programs differ.
    pub fn count(&mut self, case: u64, call: &Call, made: &Made) {
        self.calls += 1;
        let answer = made.ours.answer;
        let met = match call.name {
            Name::Write => {
                let met = (place_of(call, answer), answer.number);
                self.written.entry(met).or_default()
            }
            Name::Records => self.taken.entry(answer.number).or_default(),
        };
        *met += 1;
        seats::count(call, made, &mut self.counts);
        if made.ours != made.engines {
            self.differences += 1;
            self.smallest.keep(Difference {
                case,
                call: call.clone(),
                made: made.clone(),
            });
        }
    }

    /// Counts whether a law holds.
    pub fn law(&mut self, case: u64, law: &'static str, holds: bool) {
        let (times, broken, first) = self.laws.entry(law).or_default();
        *times += 1;
        if !holds {
            *first = if *broken == 0 { case } else { *first };
            *broken += 1;
        }
    }

    /// All that went wrong so far.
    pub fn wrong(&self) -> u64 {
        let broken: u64 = self.laws.values().map(|(_, broken, _)| broken).sum();
        self.differences + broken
    }

    /// Counts a case: it passed if nothing went wrong since the tally stood so.
    pub fn close_case(&mut self, before: u64) {
        if self.wrong() == before {
            self.passed += 1;
        } else {
            self.failed += 1;
        }
    }

    pub fn print_differences(&self, seed: u64) {
        for difference in self.smallest.shown() {
            difference.print(seed);
        }
        for (law, (_, broken, first)) in &self.laws {
            if *broken > 0 {
                println!("does not hold {broken} times: {law}");
                println!("  from: compare write {seed} {first}");
            }
        }
    }

    /// Prints the counts; the run failed if anything differs, or if a long run missed a refusal.
    pub fn report(mut self, count: u64) -> ExitCode {
        let mut missed = Vec::new();
        println!("write: accepted {}", self.times("list", 0));
        for (place, numbers) in REFUSALS {
            missed.extend(self.line(place, numbers));
        }
        missed.extend(self.line_of_records());
        for due in seats::due() {
            missed.extend(self.counts.lines(&due));
        }
        for (law, (times, broken, _)) in &self.laws {
            println!("{law}: {times} times, {broken} not");
        }
        println!("{} calls, {} differences", self.calls, self.differences);
        if count >= THOROUGH && !missed.is_empty() {
            println!("never met: {}", missed.join(", "));
            self.failed += 1;
        }
        println!("{} passed, {} failed", self.passed, self.failed);
        if self.failed > 0 {
            ExitCode::FAILURE
        } else {
            ExitCode::SUCCESS
        }
    }

    fn times(&self, place: &'static str, number: u32) -> u64 {
        self.written.get(&(place, number)).copied().unwrap_or(0)
    }

    /// Prints how often writing was refused at a place, and gives the numbers never met there.
    fn line(&self, place: &'static str, numbers: &[u32]) -> Vec<String> {
        let counts = numbers.iter().map(|number| {
            let times = self.times(place, *number);
            format!("{number}: {times}")
        });
        println!("  {place}: {}", counts.collect::<Vec<_>>().join(", "));
        let never = numbers
            .iter()
            .filter(|number| self.times(place, **number) == 0);
        never.map(|number| format!("{number} at {place}")).collect()
    }

    /// The same for taking back, where the faults of files are counted together.
    fn line_of_records(&self) -> Option<String> {
        let times = |number: u32| self.taken.get(&number).copied().unwrap_or(0);
        let file: u64 = (1..=10).map(times).sum();
        let (accepted, lengths) = (times(0), times(14));
        println!("records: accepted {accepted}; refused 1-10: {file}, 14: {lengths}");
        (lengths == 0).then(|| "14 in taking back".into())
    }
}

/// Where an answer to writing points: the sort of the record, or what comes after all of them.
pub fn place_of(call: &Call, answer: Answer) -> &'static str {
    match answer.number {
        0 => return "list",
        22 => return "buffer",
        _ => {}
    }
    match call.records.get(answer.place).map(|record| record.kind) {
        Some(2) => "input",
        Some(3) => "add",
        Some(4) => "scale",
        Some(5) => "multiply",
        Some(6) => "project",
        Some(8) => "select",
        Some(10) => "output",
        Some(_) => "another kind",
        None => "end of the list",
    }
}

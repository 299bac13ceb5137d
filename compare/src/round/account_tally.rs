//! What a run has met of accounts, meters and carried totals.

use super::accounts::{ACCEPTED, SORTS, sorts};
use super::carry::{self, Carry};
use super::sequence;
use super::step::{Name, Step};
use compare::generate::meters::BEYOND;
use compare::meter::ACCOUNTS;
use std::collections::BTreeMap;

/// How often garblings of each sort named each account.
type ByAccount = BTreeMap<(&'static str, u32), u64>;

/// The sorts of numbers above those of the accounts: each of [`BEYOND`], and any other.
pub const ABOVE: [&str; 6] = ["8", "255", "256", "2^31", "2^32 - 1", "another"];

/// The sort of such a number.
pub fn above(account: u32) -> &'static str {
    let known = BEYOND.iter().position(|number| *number == account);
    ABOVE[known.unwrap_or(BEYOND.len())]
}

#[derive(Default)]
pub struct AccountTally {
    garblings: ByAccount,
    /// Of the garblings, those in rounds that were right.
    in_rounds: ByAccount,
    /// How often 25 was given to each sort of numbers above those of the accounts.
    above: BTreeMap<&'static str, u64>,
    /// How often a garbling named such a number and had another fault too, and the first of the two
    /// was named; of 25 itself, how often there was no other fault.
    beside: BTreeMap<u32, u64>,
    /// How many sequences of each sort were played.
    sequences: BTreeMap<&'static str, u64>,
    /// How many old totals of each sort were carried over.
    carried: BTreeMap<&'static str, u64>,
}

impl AccountTally {
    /// Counts a call with this answer, if it is a garbling.
    pub fn count_call(&mut self, step: &Step, number: u32) {
        for sort in sorts(step, number) {
            *self.garblings.entry((sort, step.account)).or_default() += 1;
        }
        if step.name == Name::Garble && number == 25 {
            *self.above.entry(above(step.account)).or_default() += 1;
        }
    }

    /// Counts a round that was right, which began with this garbling.
    pub fn count_round(&mut self, garbling: &Step) {
        for sort in sorts(garbling, 0) {
            *self.in_rounds.entry((sort, garbling.account)).or_default() += 1;
        }
    }

    /// Counts a garbling into which these faults were put, and which of them was named.
    pub fn count_choice(&mut self, faults: &[u32], named: u32) {
        if !faults.contains(&25) {
            return;
        }
        if faults == [25] {
            *self.beside.entry(25).or_default() += u64::from(named == 25);
        }
        for other in faults.iter().filter(|fault| **fault != 25) {
            let first = named == first_of(*other);
            *self.beside.entry(*other).or_default() += u64::from(first);
        }
    }

    /// Counts a sequence, if it is of this sort.
    pub fn count_sequence(&mut self, sort: &'static str, is_one: bool) {
        *self.sequences.entry(sort).or_default() += u64::from(is_one);
    }

    pub fn count_carry(&mut self, carry: &Carry) {
        *self.carried.entry(carry.sort()).or_default() += 1;
    }

    /// Prints the counts, and gives what was never met.
    pub fn lines(&self) -> Vec<String> {
        println!("accounts 0, 1, ... 7");
        [
            lines_by_account("garblings", &self.garblings, &SORTS),
            lines_by_account("right rounds", &self.in_rounds, &ACCEPTED),
            line("25 by account", &self.above, &ABOVE),
            self.line_of_beside(),
            line("sequences of garblings", &self.sequences, &sequence::SORTS),
            line("carried total", &self.carried, &carry::SORTS),
        ]
        .concat()
    }

    /// Prints how often 25 stood beside each other fault, and gives those with which it was never seen
    /// which of the two comes first.
    fn line_of_beside(&self) -> Vec<String> {
        let times = |other: u32| self.beside.get(&other).copied().unwrap_or_default();
        let mut counts = Vec::new();
        let mut missed = Vec::new();
        for other in Name::Garble.refusals() {
            let what = match other {
                25 => "alone".into(),
                _ => format!("with {other}, {} named", first_of(*other)),
            };
            if times(*other) == 0 {
                missed.push(format!("account above 7 {what}"));
            }
            counts.push(format!("{what}: {}", times(*other)));
        }
        println!("account above 7 {}", counts.join("; "));
        missed
    }
}

/// Of 25 and another fault, the one that garbling looks at first.
fn first_of(other: u32) -> u32 {
    let pair = |fault: &&u32| [25, other].contains(fault);
    let first = Name::Garble.refusals().iter().find(pair);
    *first.expect("25 is one of them")
}

/// Prints how often each sort was met in each account, and gives those never met.
fn lines_by_account(what: &str, counts: &ByAccount, sorts: &[&'static str]) -> Vec<String> {
    let mut missed = Vec::new();
    for sort in sorts {
        let times = |account: u32| counts.get(&(*sort, account)).copied().unwrap_or_default();
        let accounts = 0..ACCOUNTS as u32;
        let line: Vec<String> = accounts.clone().map(|at| times(at).to_string()).collect();
        println!("  {what} {sort}: {}", line.join(" "));
        let never = accounts.filter(|account| times(*account) == 0);
        missed.extend(never.map(|account| format!("{what} {sort}, account {account}")));
    }
    missed
}

/// Prints how often each sort was met, and gives those never met.
fn line(what: &str, counts: &BTreeMap<&'static str, u64>, sorts: &[&'static str]) -> Vec<String> {
    let times = |sort: &str| counts.get(sort).copied().unwrap_or_default();
    let line: Vec<String> = sorts
        .iter()
        .map(|sort| format!("{sort}: {}", times(sort)))
        .collect();
    println!("{what} {}", line.join(", "));
    let never = sorts.iter().filter(|sort| times(sort) == 0);
    never.map(|sort| format!("{what} {sort}")).collect()
}

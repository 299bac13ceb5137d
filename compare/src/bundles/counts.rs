//! What a run has met, by the number of primes.

use std::collections::BTreeMap;
use std::ops::RangeInclusive;

/// The numbers of primes that a bundle can have.
pub const ALL: RangeInclusive<u32> = 2..=10;

/// What must be met, and with which numbers of primes it can be.
pub type Due = (String, RangeInclusive<u32>);

/// What must be met with every number of primes.
pub fn always(names: &[&str]) -> Vec<Due> {
    names.iter().map(|name| ((*name).into(), ALL)).collect()
}

#[derive(Default)]
pub struct Counts(BTreeMap<(String, u32), u64>);

impl Counts {
    pub fn add(&mut self, name: &str, r: u32, times: u64) {
        *self.0.entry((name.into(), r)).or_default() += times;
    }

    /// Prints how often each of these was met with each number of primes, and gives those never met.
    pub fn lines(&self, what: &str, due: &[Due]) -> Vec<String> {
        let mut missed = Vec::new();
        for (name, numbers) in due {
            let times = |r: u32| self.0.get(&(name.clone(), r)).copied().unwrap_or(0);
            let by_primes: Vec<String> = ALL.map(|r| times(r).to_string()).collect();
            println!("  {what} {name}: {}", by_primes.join(" "));
            let never = numbers.clone().filter(|r| times(*r) == 0);
            missed.extend(never.map(|r| format!("{what} {name} with {r} primes")));
        }
        missed
    }
}

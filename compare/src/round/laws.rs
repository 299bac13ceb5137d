//! What must hold beside that both programs answer each call alike.

use std::collections::BTreeMap;

pub const FIRST_FAULT: &str = "the first of a call's faults is named";
pub const FIRST_STRANGER: &str = "28 names the first output that names a seat at or above n";
pub const SHEETS_WRITTEN: &str =
    "a sheet has 255 where its seat may not read, and the mask of each output elsewhere";
pub const SAME_SHEET: &str =
    "equal masks of all that a seat may read give it the same sheet, whatever else is drawn";
pub const UNREAD_PASSED: &str = "no byte of a sheet where its seat may not read changes a figure";
pub const LOWEST_COUNTS: &str =
    "15 passes over masks that a seat may not read, and over no external value";
pub const COPIED: &str = "a copy has the keys and the external value of its bit";
pub const OLD_LENGTHS: &str = "what is lent in an old layout is refused by 14 at 0";
pub const TOTALS_RECKONED: &str =
    "after a sequence each total is its start plus the rows accepted in its name";
pub const TOTAL_CARRIED: &str = "an old total becomes account 0's, the others are 0";

/// All of them; a thorough run looks at each.
pub const LAWS: [&str; 10] = [
    FIRST_FAULT,
    FIRST_STRANGER,
    SHEETS_WRITTEN,
    SAME_SHEET,
    UNREAD_PASSED,
    LOWEST_COUNTS,
    COPIED,
    OLD_LENGTHS,
    TOTALS_RECKONED,
    TOTAL_CARRIED,
];

#[derive(Default)]
pub struct Laws {
    /// How often each was looked at.
    looked: BTreeMap<&'static str, u64>,
    /// Of each that did not hold, how often, and the first such case.
    broken: BTreeMap<&'static str, (u64, u64)>,
}

impl Laws {
    /// Counts whether a law holds.
    pub fn look(&mut self, case: u64, law: &'static str, holds: bool) {
        *self.looked.entry(law).or_default() += 1;
        if !holds {
            self.broken.entry(law).or_insert((0, case)).0 += 1;
        }
    }

    /// How often any of them did not hold.
    pub fn broken(&self) -> u64 {
        self.broken.values().map(|(times, _)| times).sum()
    }

    /// Prints those that did not hold, and by which subcommand the first such case is made again.
    pub fn print_broken(&self, subcommand: &str, seed: u64) {
        for (law, (times, first)) in &self.broken {
            println!("does not hold {times} times: {law}");
            println!("  from: compare {subcommand} {seed} {first}");
        }
    }

    /// Prints how often each of these was looked at, and gives those never looked at.
    pub fn lines(&self, laws: &[&'static str]) -> Vec<String> {
        let times = |law: &str| self.looked.get(law).copied().unwrap_or_default();
        for law in laws {
            println!("looked at: {law}: {}", times(law));
        }
        let never = laws.iter().filter(|law| times(law) == 0);
        never.map(|law| String::from(*law)).collect()
    }

    /// Prints those that were looked at and are none of these, and says how many there are: a list that
    /// leaves one out would not miss it.
    pub fn unlisted(&self, laws: &[&'static str]) -> u64 {
        let unlisted = self.looked.keys().filter(|law| !laws.contains(law));
        let mut count = 0;
        for law in unlisted {
            println!("looked at, and in no list: {law}");
            count += 1;
        }
        count
    }
}

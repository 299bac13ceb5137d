//! What garblings show of the accounts.

use super::case::Case;
use super::laws::NAMED_TOTAL;
use super::step::{Name, Step};
use crate::counts::Counts;
use crate::round::above;
use crate::round::accounts::sorts_of;
use compare::circuit::read;
use compare::meter::{ACCOUNTS, Meter};
use compare::pair::total_rows;

pub const BY_ACCOUNT: &str = "garblings by account 0, 1, ... 7";
pub const ROUNDS_BY_ACCOUNT: &str = "garblings of right rounds by account 0, 1, ... 7";
pub const ABOVE_7: &str = "25 by account";

/// Of a circuit with more rows the accepted one is left out, for the sake of the run's time.
const MOST_ROWS: u32 = 1000;

/// Counts a call with this answer, if it is a garbling.
pub fn count(step: &Step, number: u32, counts: &mut Counts) {
    match (step.name, number) {
        (Name::Garble, 0 | 21) => count_account(step, number, BY_ACCOUNT, counts),
        (Name::Garble, 25) => counts.add(ABOVE_7, above(step.account), 0),
        _ => {}
    }
}

/// Counts a garbling that was accepted or refused by 21, under the account that it names.
pub fn count_account(step: &Step, number: u32, heading: &'static str, counts: &mut Counts) {
    let circuit = read(&step.file).expect("the file is judged before");
    let rows = total_rows(&circuit);
    for sort in sorts_of(&step.meter, step.account, rows, number == 0) {
        counts.add(heading, sort, step.account);
    }
}

impl Case<'_> {
    /// Two garblings with rows: the named total alone is a row short of space, and it alone has just
    /// enough. Which account is named goes by turns.
    pub fn play_limits(&mut self, good: &Step) {
        let circuit = read(&good.file).expect("an accepted circuit");
        let rows = total_rows(&circuit);
        if rows == 0 {
            return;
        }
        let last = u32::MAX - rows;
        let account = self.number / 3 % ACCOUNTS as u64;
        for (named, others, due) in [(last + 1, last, 21), (last, last + 1, 0)] {
            if due == 0 && rows > MOST_ROWS {
                return;
            }
            let mut meter = Meter {
                totals: [others; ACCOUNTS],
            };
            meter.totals[account as usize] = named;
            let step = Step {
                account: account as u32,
                meter,
                ..good.clone()
            };
            let number = self.make(&step).engines.answer.number;
            self.law(NAMED_TOTAL, number == due);
        }
    }
}

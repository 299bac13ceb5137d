//! The row meter: a total of rows for each of the accounts that a unit serves.

use crate::circuit::Refusal;

/// How many accounts there are; they are numbered from 0.
pub const ACCOUNTS: usize = 8;

/// The totals of all accounts. A meter that is handed in may hold any numbers.
#[derive(Clone, Copy, Debug, Default, PartialEq, Eq)]
pub struct Meter {
    pub totals: [u32; ACCOUNTS],
}

/// Makes a meter for a unit that has had one total so far: that becomes account 0's, and the others
/// start at 0, whatever the meter held before. A new unit carries 0.
pub fn carry(total: u32, meter: &mut Meter) {
    *meter = Meter::default();
    meter.totals[0] = total;
}

impl Meter {
    /// 21: with these rows the account's total stays within its limit. They are added to it, and no
    /// other total moves.
    pub fn charge(&mut self, account: u32, rows: u32) -> Result<(), Refusal> {
        let total = &mut self.totals[account as usize];
        *total = total.checked_add(rows).ok_or(Refusal {
            number: 21,
            place: 0,
        })?;
        Ok(())
    }
}

#[cfg(test)]
mod tests {
    use super::*;

    const LIMIT: u32 = 4_294_967_295;

    #[test]
    fn an_old_total_becomes_that_of_account_0() {
        for total in [0, 1, 15, 1 << 31, LIMIT - 1, LIMIT] {
            for before in [0, 1, 1 << 31, LIMIT] {
                let mut meter = Meter {
                    totals: [before; ACCOUNTS],
                };
                carry(total, &mut meter);
                assert_eq!(meter.totals, [total, 0, 0, 0, 0, 0, 0, 0]);
            }
        }
    }

    #[test]
    fn rows_are_added_to_one_total() {
        let mut meter = Meter {
            totals: [LIMIT, 5, 0, 1 << 31, LIMIT - 9, LIMIT - 10, 7, 6],
        };
        for account in [1, 2, 3, 5, 6, 7] {
            meter.charge(account, 10).unwrap();
        }
        let due = [LIMIT, 15, 10, (1 << 31) + 10, LIMIT - 9, LIMIT, 17, 16];
        assert_eq!(meter.totals, due);
        for account in [0, 4, 5] {
            let refusal = meter.charge(account, 10).unwrap_err();
            assert_eq!((refusal.number, refusal.place), (21, 0));
            assert_eq!(meter.totals, due);
        }
        // Every total has space for no rows.
        for account in 0..8 {
            meter.charge(account, 0).unwrap();
            assert_eq!(meter.totals, due);
        }
    }

    /// Account 0 starts 5 rows below its limit and is charged with 0, 1, 2, 3, 4 rows in turn, of
    /// which the last two have no space. The other accounts go on.
    #[test]
    fn totals_are_their_starts_and_the_rows_that_they_took() {
        let mut meter = Meter { totals: [3; 8] };
        carry(LIMIT - 5, &mut meter);
        let mut due = [u64::from(LIMIT) - 5, 0, 0, 0, 0, 0, 0, 0];
        for turn in 0..40 {
            let (account, rows) = (turn % 8, turn / 8);
            let refused = account == 0 && rows > 2;
            assert_eq!(meter.charge(account, rows).is_err(), refused);
            if !refused {
                due[account as usize] += u64::from(rows);
            }
            assert_eq!(meter.totals.map(u64::from), due);
        }
        assert_eq!(meter.totals, [LIMIT - 2, 10, 10, 10, 10, 10, 10, 10]);
    }
}

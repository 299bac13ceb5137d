//! The accounts that garblings name, and the meters that they are handed.

use crate::meter::{ACCOUNTS, Meter};
use crate::rng::Rng;

/// The account that the garbling of one case names; each has its turn.
pub fn account_of(case: u64) -> u32 {
    (case % ACCOUNTS as u64) as u32
}

/// Some numbers above those of the accounts: the lowest, the highest, and some whose low byte is 255
/// or 0.
pub const BEYOND: [u32; 5] = [8, 255, 256, 1 << 31, u32::MAX];

/// A number above those of the accounts; half of them would be the account if they were cut to fewer
/// bits.
pub fn wrong_account(account: u32, rng: &mut Rng) -> u32 {
    let low = account % ACCOUNTS as u32;
    let cut = [3, 8, 16, 24, 31].map(|bits| 1 << bits | low);
    match rng.below(6) {
        0..3 => rng.pick(&cut),
        3 => rng.next_u32().max(8),
        _ => rng.pick(&BEYOND),
    }
}

/// A total that has space for so many rows, as often as not only just.
fn total_with_space(rows: u32, rng: &mut Rng) -> u32 {
    let last = u32::MAX - rows;
    let any = rng.below(last as usize + 1) as u32;
    rng.pick(&[last, last, last - 1, 0, 1, 1 << 31, any])
}

/// A total that has none, as often as not only just. Every total has space for no rows; then this is
/// the highest.
fn total_without_space(rows: u32, rng: &mut Rng) -> u32 {
    let first = (u32::MAX - rows).saturating_add(1);
    let any = rng.between(first as usize, u32::MAX as usize) as u32;
    rng.pick(&[first, first, u32::MAX, any])
}

/// A meter with any numbers; now and then all are 0 or the highest, as they may be before a total is
/// carried over.
pub fn any_meter(rng: &mut Rng) -> Meter {
    let manner = rng.below(8);
    let any = |()| match manner {
        0 => 0,
        1 => u32::MAX,
        _ => rng.next_u32(),
    };
    Meter {
        totals: [(); ACCOUNTS].map(any),
    }
}

/// A meter in which all totals have space for so many rows, or none has, or all but one have, or
/// each may or may not. The first is likeliest: then the named total alone decides.
fn mixed(rows: u32, rng: &mut Rng) -> Meter {
    let (manner, one) = (rng.pick(&[0, 0, 1, 2, 3]), rng.below(ACCOUNTS));
    let mut meter = Meter::default();
    for (account, total) in meter.totals.iter_mut().enumerate() {
        let space = match manner {
            0 => true,
            1 => false,
            2 => account != one,
            _ => rng.once_in(2),
        };
        *total = match space {
            true => total_with_space(rows, rng),
            false => total_without_space(rows, rng),
        };
    }
    meter
}

/// A meter whose named total has space for so many rows; the others may have none.
pub fn with_space(account: u32, rows: u32, rng: &mut Rng) -> Meter {
    let mut meter = mixed(rows, rng);
    if let Some(named) = meter.totals.get_mut(account as usize) {
        *named = total_with_space(rows, rng);
    }
    meter
}

/// A meter whose named total has no space for so many rows; the others may have it. Where no account
/// has the number, all totals are so: whichever is taken for the named one, it has no space.
pub fn without_space(account: u32, rows: u32, rng: &mut Rng) -> Meter {
    let mut meter = mixed(rows, rng);
    match meter.totals.get_mut(account as usize) {
        Some(named) => *named = total_without_space(rows, rng),
        None => meter.totals = [(); ACCOUNTS].map(|()| total_without_space(rows, rng)),
    }
    meter
}

/// A meter whose totals are all about as far below their limit as so many rows, so that some are at
/// it after a few garblings and others are not.
pub fn nearly_full(rows: u32, rng: &mut Rng) -> Meter {
    let near = |()| u32::MAX - rng.below(2 * rows as usize + 1) as u32;
    Meter {
        totals: [(); ACCOUNTS].map(near),
    }
}

#[cfg(test)]
mod tests {
    use super::*;
    use crate::session::check_account;

    #[test]
    fn every_account_has_its_turn() {
        for first in 0..20 {
            let mut accounts: Vec<u32> = (first..first + 8).map(account_of).collect();
            accounts.sort();
            assert_eq!(accounts, [0, 1, 2, 3, 4, 5, 6, 7]);
        }
    }

    #[test]
    fn wrong_accounts_are_wrong() {
        let mut rng = Rng::new(1);
        assert!(
            BEYOND
                .into_iter()
                .all(|wrong| check_account(wrong).is_err())
        );
        for account in 0..8 {
            for _ in 0..100 {
                let wrong = wrong_account(account, &mut rng);
                assert!(check_account(wrong).is_err(), "{wrong}");
            }
        }
    }

    fn has_space(meter: &Meter, account: u32, rows: u32) -> bool {
        let mut charged = *meter;
        charged.charge(account, rows).is_ok()
    }

    /// How many of the other accounts have space.
    fn others_with_space(meter: &Meter, account: u32, rows: u32) -> usize {
        let others = (0..8).filter(|other| *other != account);
        others
            .filter(|other| has_space(meter, *other, rows))
            .count()
    }

    #[test]
    fn the_named_total_has_space_or_not_whatever_the_others_have() {
        let mut rng = Rng::new(1);
        for account in 0..8 {
            let mut seen = [[0; 8]; 2];
            for turn in 0..400 {
                let rows = 1 + turn % 300;
                let with = with_space(account, rows, &mut rng);
                assert!(has_space(&with, account, rows));
                seen[0][others_with_space(&with, account, rows)] += 1;
                let without = without_space(account, rows, &mut rng);
                assert!(!has_space(&without, account, rows));
                seen[1][others_with_space(&without, account, rows)] += 1;
            }
            // None of them, all but one, all.
            assert!(
                [0, 6, 7]
                    .iter()
                    .all(|at| seen[0][*at] > 0 && seen[1][*at] > 0)
            );
        }
    }

    #[test]
    fn no_total_has_space_where_no_account_has_the_number() {
        let mut rng = Rng::new(1);
        for wrong in BEYOND {
            let meter = without_space(wrong, 1, &mut rng);
            assert_eq!(meter.totals, [u32::MAX; 8]);
            assert_eq!(
                others_with_space(&without_space(wrong, 9, &mut rng), 8, 9),
                0
            );
        }
    }

    #[test]
    fn totals_are_at_their_edges_often_enough() {
        let mut rng = Rng::new(1);
        let mut totals = Vec::new();
        for _ in 0..100 {
            totals.push(total_with_space(10, &mut rng));
            totals.push(total_without_space(10, &mut rng));
        }
        let last = u32::MAX - 10;
        for edge in [0, 1, 1 << 31, last - 1, last, last + 1, u32::MAX] {
            assert!(totals.contains(&edge), "{edge}");
        }
        assert_eq!(total_without_space(0, &mut rng), u32::MAX);
    }
}

//! What garblings show of the accounts: which one was charged or had no space, and how the others
//! stood then.

use super::step::{Name, Step};
use crate::call::After;
use compare::circuit::read;
use compare::meter::Meter;

/// The sorts of such garblings; each must be met in every account. A total is full where it has no
/// space for the garbling's rows.
pub const SORTS: [&str; 5] = [
    ACCEPTED[0],
    ACCEPTED[1],
    ACCEPTED[2],
    "refused by 21",
    "refused by 21 while no other was full",
];

/// Those of accepted garblings; each must be met in every account in a round that was right.
pub const ACCEPTED: [&str; 3] = [
    "charged",
    "charged up to its limit",
    "charged while another was full",
];

/// The sorts that a garbling with this answer is of. One without rows shows nothing.
pub fn sorts(step: &Step, number: u32) -> Vec<&'static str> {
    if step.name != Name::Garble || !matches!(number, 0 | 21) {
        return Vec::new();
    }
    let circuit = read(&step.file).expect("the file is judged before");
    let rows = circuit.counts().rows;
    sorts_of(&step.meter, step.account, rows, number == 0)
}

/// The sorts of a garbling of so many rows that was lent this meter, and accepted or else refused by
/// 21.
pub fn sorts_of(meter: &Meter, account: u32, rows: u32, accepted: bool) -> Vec<&'static str> {
    if rows == 0 {
        return Vec::new();
    }
    let is = of_garbling(meter, account, rows, accepted);
    let met = SORTS.into_iter().zip(is).filter(|(_, is)| *is);
    met.map(|(sort, _)| sort).collect()
}

/// Which of the sorts such a garbling is of.
fn of_garbling(meter: &Meter, account: u32, rows: u32, accepted: bool) -> [bool; 5] {
    let last = u32::MAX - rows;
    let mut others = meter.totals.to_vec();
    let named = others.remove(account as usize);
    let other_full = others.iter().any(|total| *total > last);
    [
        accepted,
        accepted && named == last,
        accepted && other_full,
        !accepted,
        !accepted && !other_full,
    ]
}

/// The meter as a garbling left it.
pub fn meter_after(after: &After) -> Meter {
    let totals = after.loan.numbers.first_chunk().expect("a meter is lent");
    Meter { totals: *totals }
}

//! An old total carried over into a meter, by both programs.

use super::difference::print_meters;
use crate::call::BLANK_NUMBER;
use crate::smallest;
use compare::generate::meters::any_meter;
use compare::meter::{ACCOUNTS, Meter};
use compare::rng::Rng;
use std::fmt;

/// The old total, and what the meter holds before.
#[derive(Clone, Copy, Debug)]
pub struct Carry {
    pub total: u32,
    pub before: Meter,
}

/// The totals of a meter, and one more number that is not lent.
pub type Held = [u32; ACCOUNTS + 1];

/// What each program made of the meter.
#[derive(Clone, Copy, Debug)]
pub struct Carried {
    pub ours: Held,
    pub engines: Held,
}

/// The sorts of old totals: four numbers, and any other.
pub const SORTS: [&str; 5] = ["0", "1", "2^31", "2^32 - 1", "another"];

/// An old total of each sort, each into a meter that holds anything before.
pub fn drawn(rng: &mut Rng) -> [Carry; 5] {
    let totals = [0, 1, 1 << 31, u32::MAX, rng.next_u32()];
    totals.map(|total| Carry {
        total,
        before: any_meter(rng),
    })
}

impl Carry {
    pub fn lent(&self) -> Held {
        let mut held = [BLANK_NUMBER; ACCOUNTS + 1];
        held[..ACCOUNTS].copy_from_slice(&self.before.totals);
        held
    }

    pub fn sort(&self) -> &'static str {
        match self.total {
            0 => SORTS[0],
            1 => SORTS[1],
            0x8000_0000 => SORTS[2],
            u32::MAX => SORTS[3],
            _ => SORTS[4],
        }
    }
}

impl Carried {
    /// The meter as the engine left it.
    pub fn meter(&self) -> Meter {
        let [totals @ .., _] = self.engines;
        Meter { totals }
    }

    /// Whether the engine's meter has the old total as account 0's, and 0 in all others.
    pub fn holds(&self, total: u32) -> bool {
        self.meter().totals == [total, 0, 0, 0, 0, 0, 0, 0]
    }
}

impl fmt::Display for Carry {
    fn fmt(&self, to: &mut fmt::Formatter) -> fmt::Result {
        let Carry { total, before } = self;
        write!(to, "meter_carry total={total} meter={:?}", before.totals)
    }
}

pub struct Difference {
    pub case: u64,
    pub carry: Carry,
    pub carried: Carried,
}

impl smallest::Difference for Difference {
    fn sort(&self) -> smallest::Sort {
        ("meter_carry", 0, 0)
    }

    fn size(&self) -> usize {
        self.carry.total as usize
    }
}

impl Difference {
    pub fn print(&self, seed: u64) {
        println!("difference in: {}", self.carry);
        print_meters(&self.carried.ours, &self.carried.engines);
        println!("  from: compare round {seed} {}", self.case);
    }
}

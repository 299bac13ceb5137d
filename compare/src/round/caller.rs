//! The calls of one case: each is made of both programs, printed if that is asked for, and counted.

use super::carry::{Carried, Carry};
use super::chain::Made;
use super::copies::are_copied;
use super::laws::{COPIED, TOTAL_CARRIED};
use super::step::Step;
use super::tally::Tally;
use super::{engine, second};

pub struct Caller<'t> {
    pub case: u64,
    pub tally: &'t mut Tally,
    /// Whether each call is printed.
    pub print: bool,
}

impl Caller<'_> {
    pub fn make(&mut self, step: &Step) -> Made {
        let made = make(step);
        if self.print {
            let (ours, engines) = (made.ours.answer, made.engines.answer);
            println!("{step}: second {ours}, engine {engines}");
        }
        self.tally.count(self.case, step, &made);
        if let Some(holds) = are_copied(step, &made.engines) {
            self.law(COPIED, holds);
        }
        made
    }

    pub fn carry(&mut self, carry: &Carry) -> Carried {
        let carried = Carried {
            ours: second::carry(carry),
            engines: engine::carry(carry),
        };
        if self.print {
            println!("{carry}: {:?}", carried.meter().totals);
        }
        self.tally.count_carry(self.case, carry, &carried);
        self.law(TOTAL_CARRIED, carried.holds(carry.total));
        carried
    }

    /// Counts whether a law holds.
    pub fn law(&mut self, law: &'static str, holds: bool) {
        if self.print && !holds {
            println!("does not hold: {law}");
        }
        self.tally.laws.look(self.case, law, holds);
    }
}

/// Makes a call of both programs.
pub fn make(step: &Step) -> Made {
    Made {
        ours: second::run(step),
        engines: engine::run(step),
    }
}

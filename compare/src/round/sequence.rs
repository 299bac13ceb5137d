//! Sequences of garblings with one meter, accepted and refused ones mixed. What its totals must then
//! be is reckoned apart.

use super::accounts::meter_after;
use super::caller::Caller;
use super::carry::Carry;
use super::laws::{FIRST_FAULT, TOTALS_RECKONED};
use super::order::{faulty, possible};
use super::step::{Name, Step};
use crate::call::ACCEPTED;
use compare::circuit::read;
use compare::generate::meters::{any_meter, nearly_full};
use compare::generate::settings::{Setting, small};
use compare::meter::{ACCOUNTS, Meter};
use compare::rng::Rng;

const NEW: &str = "from a new meter";
const CARRIED: &str = "from a carried total that grew";
const NEARLY_FULL: &str = "from totals near their limit";
const WENT_ON: &str = "that went on after 21";

/// What sequences start from, each in turn.
const STARTS: [&str; 3] = [NEW, CARRIED, NEARLY_FULL];

/// The sorts of sequences: by their start, and by what some of them come to.
pub const SORTS: [&str; 4] = [NEW, CARRIED, NEARLY_FULL, WENT_ON];

/// How many circuits a sequence garbles.
const CIRCUITS: usize = 3;

struct Sequence {
    /// As the engine left it last.
    meter: Meter,
    /// What each total must be: its start and the rows of the accepted garblings that named it.
    reckoned: [u64; ACCOUNTS],
    /// Whether 21 was met, and whether a garbling with rows was accepted after that.
    refused: bool,
    went_on: bool,
}

/// Plays a sequence of some garblings, each of one of a few circuits.
pub fn play(rng: &mut Rng, caller: &mut Caller) {
    let settings = [(); CIRCUITS].map(|()| small(rng));
    let rows = settings.iter().map(Setting::rows).sum();
    let start = STARTS[caller.case as usize % STARTS.len()];
    let (meter, totals) = started(start, rows, rng, caller);
    let mut sequence = Sequence {
        meter,
        reckoned: totals.map(u64::from),
        refused: false,
        went_on: false,
    };
    for _ in 0..rng.between(4, 12) {
        let setting = &settings[rng.below(CIRCUITS)];
        sequence.garble(setting, rng, caller);
    }
    caller.law(TOTALS_RECKONED, sequence.is_as_reckoned());
    let accounts = &mut caller.tally.accounts;
    let charged = sequence.reckoned[0] > totals[0].into();
    accounts.count_sequence(start, start != CARRIED || charged);
    accounts.count_sequence(WENT_ON, sequence.went_on);
}

/// The meter with which a sequence of circuits starts that have so many rows together, and what its
/// totals must be.
fn started(start: &str, rows: u32, rng: &mut Rng, caller: &mut Caller) -> (Meter, [u32; ACCOUNTS]) {
    let total = match start {
        NEW => 0,
        CARRIED => old_total(rows, rng),
        _ => {
            let meter = nearly_full(rows, rng);
            return (meter, meter.totals);
        }
    };
    let before = any_meter(rng);
    let carried = caller.carry(&Carry { total, before });
    (carried.meter(), [total, 0, 0, 0, 0, 0, 0, 0])
}

/// An old total that mostly has space for some of so many rows.
fn old_total(rows: u32, rng: &mut Rng) -> u32 {
    match rng.below(5) {
        0 => rng.next_u32(),
        1 => u32::MAX,
        _ => u32::MAX - rng.below(rows as usize + 1) as u32,
    }
}

impl Sequence {
    /// One more garbling, with the meter as the engine left it.
    fn garble(&mut self, setting: &Setting, rng: &mut Rng, caller: &mut Caller) {
        let good = self.good(setting, rng);
        let faults = drawn_faults(&good, rng);
        let step = faulty(&good, &faults, rng);
        let rows = setting.rows();
        let due = self.due(&faults, good.account, rows);
        let made = caller.make(&step);
        caller.law(FIRST_FAULT, made.engines.answer.number == due);
        self.meter = meter_after(&made.engines);
        let named = self.reckoned.get_mut(step.account as usize);
        if let (ACCEPTED, Some(named)) = (made.engines.answer, named) {
            *named += u64::from(rows);
            self.went_on |= self.refused && rows > 0;
        }
        self.refused |= due == 21;
    }

    /// A garbling without faults, unless the account has no space; account 0, which alone has a
    /// start that is carried over, is named most often.
    fn good(&self, setting: &Setting, rng: &mut Rng) -> Step {
        let circuit = read(&setting.file).expect("an accepted circuit");
        let given = vec![setting.contributions.clone()];
        let any = rng.below(ACCOUNTS) as u32;
        Step {
            account: rng.pick(&[0, any, any]),
            meter: self.meter,
            ..Step::new(setting, &circuit, (Name::Garble, 0), given, rng)
        }
    }

    /// Whether the engine's totals are what they must be, and that is within their limit.
    fn is_as_reckoned(&self) -> bool {
        let within = |total: &u64| *total <= u32::MAX.into();
        self.meter.totals.map(u64::from) == self.reckoned && self.reckoned.iter().all(within)
    }

    /// The answer that is due, by what is reckoned so far.
    fn due(&self, faults: &[u32], account: u32, rows: u32) -> u32 {
        let sum = self.reckoned[account as usize] + u64::from(rows);
        match faults.first() {
            Some(first) => *first,
            None if sum > u32::MAX.into() => 21,
            None => 0,
        }
    }
}

/// Mostly none; else some of those that leave the meter as it is.
fn drawn_faults(good: &Step, rng: &mut Rng) -> Vec<u32> {
    if !rng.once_in(3) {
        return Vec::new();
    }
    let mut faults = possible(good);
    faults.retain(|fault| *fault != 21 && rng.once_in(3));
    faults
}

//! Sequences of garblings with one meter, for two and for n parties: what its totals come to is
//! reckoned apart.

use super::case::Case;
use super::laws::{FIRST_FAULT, TOTALS_RECKONED};
use super::order::{faults_of, faulty};
use super::step::{Name, Step};
use crate::call::ACCEPTED;
use crate::round::accounts::meter_after;
use crate::round::{self, Made};
use compare::circuit::read;
use compare::generate::meters::nearly_full;
use compare::generate::pair_settings::{self, PairSetting};
use compare::generate::settings::{self, Setting};
use compare::meter::{ACCOUNTS, Meter};
use compare::rng::Rng;

pub const HEADING: &str = "sequences of garblings";

const NEW: &str = "from a new meter";
const NEARLY_FULL: &str = "from totals near their limit";
const WENT_ON: &str = "that went on after 21";
const BOTH: &str = "with garblings of both forms in one account";

pub const SORTS: [&str; 4] = [NEW, NEARLY_FULL, WENT_ON, BOTH];

/// How many garblings a sequence has.
const LENGTH: usize = 6;

struct Sequence {
    /// As the engine left it last.
    meter: Meter,
    /// What each total must be: its start and the rows of the accepted garblings that named it.
    reckoned: [u64; ACCOUNTS],
    /// Whether 21 was met, and whether a garbling with rows was accepted after that.
    refused: bool,
    went_on: bool,
    /// Of each form, the accounts to which rows were charged.
    charged: [[bool; ACCOUNTS]; 2],
}

impl Case<'_> {
    /// Plays a sequence of some garblings, each of one of two circuits for two or of one for n
    /// parties.
    pub fn play_sequence(&mut self) {
        let pairs = [(); 2].map(|()| pair_settings::small(&mut self.rng));
        let for_parties = settings::small(&mut self.rng);
        let rows: u32 = pairs.iter().map(PairSetting::rows).sum();
        let (start, meter) = match self.number % 2 {
            0 => (NEW, Meter::default()),
            _ => (NEARLY_FULL, nearly_full(2 * rows + 1, &mut self.rng)),
        };
        let mut sequence = Sequence {
            meter,
            reckoned: meter.totals.map(u64::from),
            refused: false,
            went_on: false,
            charged: Default::default(),
        };
        for _ in 0..LENGTH {
            // Few accounts, so that some are charged more than once.
            let any = self.rng.below(ACCOUNTS) as u32;
            let account = self.rng.pick(&[0, 1, any]);
            match self.rng.below(3) {
                0 => self.garble_for_parties(&for_parties, account, &mut sequence),
                at => self.garble_for_two(&pairs[at - 1], account, &mut sequence),
            }
        }
        self.law(TOTALS_RECKONED, sequence.is_as_reckoned());
        let [two, parties] = sequence.charged;
        let both = two
            .into_iter()
            .zip(parties)
            .any(|(two, parties)| two && parties);
        let is = [start == NEW, start == NEARLY_FULL, sequence.went_on, both];
        self.tally.counts.add_met(HEADING, &SORTS, &is, 0);
    }

    /// A garbling for two, now and then with faults that leave the meter as it is.
    fn garble_for_two(&mut self, setting: &PairSetting, account: u32, sequence: &mut Sequence) {
        let circuit = read(&setting.file).expect("an accepted circuit");
        let given = vec![setting.draw.clone()];
        let good = Step {
            account,
            meter: sequence.meter,
            ..Step::new(setting, &circuit, Name::Garble, given, &mut self.rng)
        };
        let mut faults = drawn_faults(&mut self.rng);
        let (step, impossible) = faulty(&good, &faults, &mut self.rng);
        faults.retain(|fault| !impossible.contains(fault));
        let rows = setting.rows();
        let due = match faults.first() {
            Some(first) => *first,
            None => sequence.due(account, rows),
        };
        let made = self.make(&step);
        self.law(FIRST_FAULT, made.engines.answer.number == due);
        sequence.take(&made, step.account, rows, 0);
    }

    /// A garbling for n parties.
    fn garble_for_parties(&mut self, setting: &Setting, account: u32, sequence: &mut Sequence) {
        let circuit = read(&setting.file).expect("an accepted circuit");
        let given = vec![setting.contributions.clone()];
        let garble = (round::Name::Garble, 0);
        let step = round::Step {
            account,
            meter: sequence.meter,
            ..round::Step::new(setting, &circuit, garble, given, &mut self.rng)
        };
        let made = self.make_for_parties(&step);
        sequence.take(&made, account, setting.rows(), 1);
    }
}

impl Sequence {
    /// The answer that is due to a garbling without faults, by what is reckoned so far.
    fn due(&self, account: u32, rows: u32) -> u32 {
        let sum = self.reckoned[account as usize] + u64::from(rows);
        if sum > u32::MAX.into() { 21 } else { 0 }
    }

    /// Takes over the meter as the engine left it, and reckons with the rows of this form.
    fn take(&mut self, made: &Made, account: u32, rows: u32, form: usize) {
        self.meter = meter_after(&made.engines);
        let named = self.reckoned.get_mut(account as usize);
        if let (ACCEPTED, Some(named)) = (made.engines.answer, named) {
            *named += u64::from(rows);
            self.went_on |= self.refused && rows > 0;
            self.charged[form][account as usize] |= rows > 0;
        }
        self.refused |= made.engines.answer.number == 21;
    }

    /// Whether the engine's totals are what they must be, and that is within their limit.
    fn is_as_reckoned(&self) -> bool {
        let within = |total: &u64| *total <= u32::MAX.into();
        self.meter.totals.map(u64::from) == self.reckoned && self.reckoned.iter().all(within)
    }
}

/// Mostly none; else some of those that leave the meter as it is.
fn drawn_faults(rng: &mut Rng) -> Vec<u32> {
    if !rng.once_in(3) {
        return Vec::new();
    }
    let mut faults = faults_of(Name::Garble);
    faults.retain(|fault| *fault != 21 && rng.once_in(3));
    faults
}

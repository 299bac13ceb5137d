//! The runs: many cases, or one of them.

use super::caller::Caller;
use super::chain::play;
use super::faults::spoiled;
use super::loose::{loose, on_any_file};
use super::reopened::reopen;
use super::step::{Name, Step};
use super::tally::Tally;
use super::{again, carry, old_layouts, order, readers, sequence, strangers, unread};
use compare::generate::settings::setting;
use compare::rng::Rng;
use std::process::ExitCode;

/// Compares the two programs on so many cases.
pub fn run(seed: u64, count: u64) -> ExitCode {
    let mut tally = Tally::default();
    for case in 0..count {
        play_case(seed, case, &mut tally, false);
    }
    tally.print_differences(seed);
    tally.report()
}

/// Makes the calls of one case again, and prints them.
pub fn one(seed: u64, case: u64) -> ExitCode {
    let mut tally = Tally::default();
    play_case(seed, case, &mut tally, true);
    tally.print_differences(seed);
    tally.report()
}

/// A case: a whole round, openings of it with other round numbers, calls with faults, calls lent what
/// has an old layout, what goes with the seats that outputs name, old totals carried over, and a
/// sequence of garblings.
fn play_case(seed: u64, case: u64, tally: &mut Tally, print: bool) {
    let mut rng = Rng::of_case(seed, case);
    let setting = setting(case, &mut rng);
    let before = tally.wrong();
    let mut caller = Caller {
        case,
        tally: &mut *tally,
        print,
    };
    let mut count = |step: &Step| caller.make(step);
    let round = play(&setting, &mut rng, &mut count);
    let reopened = reopen(&round, &mut rng, &mut count);
    for _ in 0..faulty_calls(setting.cost()) {
        let good = one_of(&round.steps, &mut rng);
        count(&spoiled(good, &mut rng));
    }
    for _ in 0..2 {
        count(&loose(&setting.file, &mut rng));
        count(&on_any_file(&mut rng));
    }
    old_layouts::play(&round, &mut rng, &mut caller);
    order::play(&round.steps, &mut rng, &mut caller);
    strangers::play(&round.steps, &mut rng, &mut caller);
    readers::look_at_sheets(&setting, &round, &mut caller);
    unread::play(&round, &mut rng, &mut caller);
    again::play(&setting, &round, &mut rng, &mut caller);
    for carry in carry::drawn(&mut rng) {
        caller.carry(&carry);
    }
    sequence::play(&mut rng, &mut caller);
    tally.count_round(&setting, &round, &reopened);
    tally.close_case(before);
}

/// A call of a round; those that check most are likeliest.
fn one_of<'s>(steps: &'s [Step], rng: &mut Rng) -> &'s Step {
    use Name::{Decode, Externals, Garble, InputKeys, Open};
    let likely = [
        Garble, Garble, Garble, Externals, InputKeys, InputKeys, Open, Open, Open, Open, Decode,
    ];
    let name = rng.pick(&likely);
    let same: Vec<&Step> = steps.iter().filter(|step| step.name == name).collect();
    rng.pick(&same)
}

/// How many faulty calls go with a round that takes so many permutations.
fn faulty_calls(cost: u64) -> usize {
    match cost {
        0..=10_000 => 24,
        10_001..=100_000 => 8,
        _ => 3,
    }
}

//! The runs: many cases, or one of them.

use super::case::Case;
use super::faults::spoiled;
use super::loose::{loose, on_any_file};
use super::step::{NAMES, Name, Step};
use super::tally::Tally;
use compare::generate::pair_settings::setting;
use compare::rng::Rng;
use std::process::ExitCode;

/// Compares the two programs on so many cases.
pub fn run(seed: u64, count: u64) -> ExitCode {
    let mut tally = Tally::default();
    for number in 0..count {
        play_case(seed, number, &mut tally, false);
    }
    tally.print_differences(seed);
    tally.report()
}

/// Makes the calls of one case again, and prints them.
pub fn one(seed: u64, number: u64) -> ExitCode {
    let mut tally = Tally::default();
    play_case(seed, number, &mut tally, true);
    tally.print_differences(seed);
    tally.report()
}

/// A case: a whole round, openings of it with what is not its own, calls with faults of each sort,
/// calls that belong to no round, and a sequence of garblings. The first begins with the examples.
fn play_case(seed: u64, number: u64, tally: &mut Tally, print: bool) {
    let before = tally.wrong();
    let mut case = Case {
        number,
        rng: Rng::of_case(seed, number),
        tally: &mut *tally,
        print,
    };
    if number == 0 {
        case.play_examples();
    }
    let setting = setting(number, &mut case.rng);
    let round = case.play_round(&setting);
    case.reopen(&round);
    let [_, with_buffers @ ..] = &round.steps;
    case.play_choices(&round.steps);
    case.play_lengths(with_buffers);
    case.play_bytes(with_buffers);
    case.play_offsets(&with_buffers[..2]);
    case.play_owners(&round.steps);
    case.play_selectors(&round.steps);
    case.play_seats(&round.steps);
    case.play_limits(&with_buffers[0]);
    for _ in 0..spoiled_calls(setting.cost()) {
        let good = one_of(&round.steps, &mut case.rng);
        let step = spoiled(good, &mut case.rng);
        case.make(&step);
    }
    for name in NAMES {
        let step = loose(name, &mut case.rng);
        case.make(&step);
        let step = on_any_file(name, &mut case.rng);
        case.make(&step);
    }
    case.play_sequence();
    tally.count_round(&setting, &round);
    tally.close_case(before);
}

/// A call of a round; those that check most are likeliest.
fn one_of<'s>(steps: &'s [Step], rng: &mut Rng) -> &'s Step {
    use Name::{Decode, Garble, InputKeys, Open, Read};
    let likely = [
        Garble, Garble, Garble, InputKeys, InputKeys, InputKeys, Open, Open, Open, Decode, Read,
    ];
    let name = rng.pick(&likely);
    let same = steps.iter().find(|step| step.name == name);
    same.expect("a round has each call")
}

/// How many calls with faults go with a round that takes so many permutations: some are accepted.
fn spoiled_calls(cost: u64) -> usize {
    match cost {
        0..=2_000 => 14,
        2_001..=20_000 => 6,
        _ => 2,
    }
}

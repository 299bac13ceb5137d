//! The runs: many cases, or one of them.

use super::case::Case;
use super::sweep;
use super::tally::Tally;
use compare::rng::Rng;
use std::process::ExitCode;

/// Compares the two programs on so many cases.
pub fn run(seed: u64, count: u64) -> ExitCode {
    let mut tally = Tally::default();
    for case in 0..count {
        play_case(seed, case, &mut tally, false);
    }
    tally.print_differences(seed);
    tally.report()
}

/// Makes the calls of one case again, and prints them.
pub fn one(seed: u64, case: u64) -> ExitCode {
    let mut tally = Tally::default();
    play_case(seed, case, &mut tally, true);
    tally.print_differences(seed);
    tally.report()
}

fn play_case(seed: u64, number: u64, tally: &mut Tally, print: bool) {
    let before = tally.wrong();
    let mut case = Case {
        number,
        rng: Rng::of_case(seed, number),
        tally: &mut *tally,
        print,
    };
    if number < sweep::CASES {
        case.sweep();
    }
    case.play_calls();
    case.play_circuit();
    tally.close_case(before);
}

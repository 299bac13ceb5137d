//! The runs: many cases, or one of them.

use super::case::Case;
use super::tally::Tally;
use compare::generate::records::random_list;
use compare::generate::{Cases, record_sweep};
use compare::record::List;
use std::process::ExitCode;

/// What the cases of a run are made from: first the sweeps, of files and of lists, which are the
/// same in every run, then what follows from the seed.
struct Source {
    files: Cases,
    lists: Vec<List>,
}

/// Compares the two programs on so many cases.
pub fn run(seed: u64, count: u64) -> ExitCode {
    let source = Source::new(seed);
    let mut tally = Tally::default();
    for case in 0..count {
        source.play(case, &mut tally, false);
    }
    tally.print_differences(seed);
    tally.report(count)
}

/// Makes the calls of one case again, and prints them.
pub fn one(seed: u64, case: u64) -> ExitCode {
    let mut tally = Tally::default();
    Source::new(seed).play(case, &mut tally, true);
    tally.print_differences(seed);
    tally.report(1)
}

impl Source {
    fn new(seed: u64) -> Self {
        Source {
            files: Cases::new(seed),
            lists: record_sweep::lists(),
        }
    }

    fn play(&self, number: u64, tally: &mut Tally, print: bool) {
        let before = tally.wrong();
        let (file, mut rng) = self.files.file(number);
        let swept = usize::try_from(number)
            .ok()
            .and_then(|at| self.lists.get(at));
        let list = match swept {
            Some(list) => list.clone(),
            None => random_list(&mut rng),
        };
        let mut case = Case {
            number,
            rng,
            tally: &mut *tally,
            print,
        };
        case.play_list(&list);
        case.play_file(&file);
        tally.close_case(before);
    }
}

//! A difference between the two programs, printed so that it can be looked into.

use super::chain::Made;
use super::step::Step;
use crate::call::After;
use crate::hex;
use crate::smallest::{self, Sort};
use compare::meter::ACCOUNTS;

/// A longer file is not printed, but can be made again.
const SHOWN_BYTES: usize = 1200;

pub struct Difference {
    pub case: u64,
    pub step: Step,
    pub made: Made,
}

impl smallest::Difference for Difference {
    fn sort(&self) -> Sort {
        let Made { ours, engines } = &self.made;
        let name = self.step.name.text();
        (name, ours.answer.number, engines.answer.number)
    }

    fn size(&self) -> usize {
        let buffers = self.step.buffers.iter().map(Vec::len).sum::<usize>();
        self.step.file.len() + buffers
    }
}

impl Difference {
    /// Prints it, and by which subcommand its case is made again.
    pub fn print(&self, subcommand: &str, seed: u64) {
        let Made { ours, engines } = &self.made;
        println!("difference in: {}", self.step);
        println!("  second: {}", ours.answer);
        println!("  engine: {}", engines.answer);
        if ours.loan.numbers != engines.loan.numbers {
            print_meters(&ours.loan.numbers, &engines.loan.numbers);
        }
        print_buffers(self.step.name.buffers(), &self.step.buffers, &self.made);
        let from = format!("compare {subcommand} {seed} {}", self.case);
        print_file(&self.step.file, &from);
    }
}

/// The length of a call's file and by what command it is made again, and a short one itself.
pub fn print_file(file: &[u8], from: &str) {
    println!("  file of {} bytes, from: {from}", file.len());
    if file.len() <= SHOWN_BYTES {
        print!("{}", hex::text_of(file));
    }
}

/// The lengths of all buffers, by name and as they were before, and where those of the two programs
/// part.
pub fn print_buffers(names: &[&str], before: &[Vec<u8>], made: &Made) {
    let Made { ours, engines } = made;
    if ours.loan.file != engines.loan.file {
        println!("  the engine wrote into the file or around it");
    }
    for (at, (name, before)) in names.iter().zip(before).enumerate() {
        print!("  {name}: {} bytes", before.len());
        let content = |after: &After| after.loan.buffers[at].content().to_vec();
        let (one, other) = (content(ours), content(engines));
        let parting = (0..one.len()).find(|byte| one[*byte] != other[*byte]);
        if let Some(byte) = parting {
            let count = (0..one.len()).filter(|at| one[*at] != other[*at]).count();
            print!(", {count} differ, from {byte} on: before {}", before[byte]);
            print!(", second {}, engine {}", one[byte], other[byte]);
        } else if ours.loan.buffers[at] != engines.loan.buffers[at] {
            print!(", the engine wrote around it");
        }
        println!();
    }
}

/// A meter as each program left it, and whether the engine wrote into the number behind, which was
/// not lent.
pub fn print_meters(ours: &[u32], engines: &[u32]) {
    let [(one, past_one), (other, past_other)] =
        [ours, engines].map(|numbers| numbers.split_at(ACCOUNTS));
    println!("  meter: second {one:?}, engine {other:?}");
    if past_one != past_other {
        println!("  the engine wrote past the meter");
    }
}

//! A difference between the two programs, printed so that it can be looked into.

use super::step::{Name, Step};
use crate::round::Made;
use crate::round::difference::{print_buffers, print_file, print_meters};
use crate::smallest::{self, Sort};

pub struct Difference {
    pub case: u64,
    pub step: Step,
    pub made: Made,
}

impl smallest::Difference for Difference {
    fn sort(&self) -> Sort {
        let Made { ours, engines } = &self.made;
        let name = self.step.name.text();
        (name, ours.answer.number, engines.answer.number)
    }

    fn size(&self) -> usize {
        let buffers = self.step.buffers.iter().map(Vec::len).sum::<usize>();
        self.step.file.len() + buffers
    }
}

impl Difference {
    pub fn print(&self, seed: u64) {
        let Made { ours, engines } = &self.made;
        println!("difference in: {}", self.step);
        println!("  second: {}", ours.answer);
        println!("  engine: {}", engines.answer);
        let (one, other) = (&ours.loan.numbers, &engines.loan.numbers);
        if one != other && self.step.name == Name::Garble {
            print_meters(one, other);
        } else if one != other {
            println!("  numbers, the last not lent: second {one:?}, engine {other:?}");
        }
        print_buffers(self.step.name.buffers(), &self.step.buffers, &self.made);
        let from = format!("compare pair {seed} {}", self.case);
        print_file(&self.step.file, &from);
    }
}

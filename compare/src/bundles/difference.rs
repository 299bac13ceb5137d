//! A difference between the two programs, printed so that it can be looked into.

use super::call::{Call, Made};
use crate::hex;
use crate::smallest::{self, Sort};
use std::fmt::Display;

pub struct Difference {
    pub case: u64,
    pub call: Call,
    pub made: Made,
}

impl smallest::Difference for Difference {
    fn sort(&self) -> Sort {
        let Made { ours, engines } = &self.made;
        let name = self.call.name.text();
        (name, ours.answer.number, engines.answer.number)
    }

    fn size(&self) -> usize {
        self.call.buffer.len()
    }
}

impl Difference {
    pub fn print(&self, seed: u64) {
        let Made { ours, engines } = &self.made;
        println!("difference in: {}", self.call);
        println!("  second: {}", ours.answer);
        println!("  engine: {}", engines.answer);
        let (one, other) = (&ours.loan, &engines.loan);
        print_number("words", one.words, other.words);
        print_number("integer", one.integer, other.integer);
        if one.buffer.content() != other.buffer.content() {
            print_buffer("before", &self.call.buffer);
            print_buffer("second", one.buffer.content());
            print_buffer("engine", other.buffer.content());
        } else if one.buffer != other.buffer {
            println!("  the engine wrote around the buffer");
        }
        println!("  from: compare bundle {seed} {}", self.case);
    }
}

/// A number as each program left it, and whether the engine wrote into the one behind, which was not
/// lent.
fn print_number<N: PartialEq + Display>(name: &str, ours: [N; 2], engines: [N; 2]) {
    let ([one, past_one], [other, past_other]) = (ours, engines);
    if one != other {
        println!("  {name}: second {one}, engine {other}");
    }
    if past_one != past_other {
        println!("  {name}: the engine wrote past the number");
    }
}

fn print_buffer(whose: &str, content: &[u8]) {
    println!("  buffer, {whose}:");
    print!("{}", hex::text_of(content));
}

//! One case of a run: calls with each choice of faults, calls with any numbers, round trips, and a
//! circuit with parts.

use super::call::{Call, Made, NAMES, Name};
use super::faults::faulty;
use super::laws::FIRST_FAULT;
use super::loose::loose;
use super::tally::Tally;
use super::{engine, second};
use crate::call::ACCEPTED;
use crate::round::{self, Step};
use compare::generate::bundle_numbers::{integer, residues};
use compare::rng::Rng;

pub struct Case<'t> {
    pub number: u64,
    pub rng: Rng,
    pub tally: &'t mut Tally,
    /// Whether each call is printed.
    pub print: bool,
}

/// How many calls with any numbers are made of each sort.
const LOOSE: usize = 6;

impl Case<'_> {
    /// Makes a call of both programs, and counts it.
    pub fn make(&mut self, call: &Call) -> Made {
        let made = Made {
            ours: second::run(call),
            engines: engine::run(call),
        };
        if self.print {
            let (ours, engines) = (made.ours.answer, made.engines.answer);
            println!("{call}: second {ours}, engine {engines}");
        }
        self.tally.count(self.number, call, &made);
        made
    }

    /// Makes a call of a round of both programs, and counts it.
    pub fn make_step(&mut self, step: &Step) -> round::Made {
        let made = round::make(step);
        if self.print {
            let (ours, engines) = (made.ours.answer, made.engines.answer);
            println!("{step}: second {ours}, engine {engines}");
        }
        self.tally.count_step(self.number, step, &made);
        made
    }

    /// The number of primes that this case is about; each has its turn.
    pub fn r(&self) -> u32 {
        2 + (self.number % 9) as u32
    }

    /// Makes calls of each sort: with every choice of its faults, none among them, and with numbers
    /// of any sort. Then both round trips.
    pub fn play_calls(&mut self) {
        for name in NAMES {
            for choice in 0..1 << name.refusals().len() {
                self.play_faulty(name, choice);
            }
            for _ in 0..LOOSE {
                let call = loose(name, &mut self.rng);
                self.make(&call);
            }
        }
        let r = self.r();
        let integer = integer(r, &mut self.rng);
        self.split_and_joined(r, integer);
        let residues = residues(r, &mut self.rng);
        self.joined_and_split(r, &residues);
    }

    /// A call with a choice of the faults that it can have: the first of them is the one named.
    fn play_faulty(&mut self, name: Name, choice: usize) {
        let chosen = name.refusals().iter().enumerate();
        let chosen = chosen.filter(|(at, _)| choice >> at & 1 == 1);
        let faults: Vec<u32> = chosen.map(|(_, number)| *number).collect();
        let call = faulty(name, self.r(), &faults, &mut self.rng);
        let named = self.make(&call).ours.answer.number;
        let due = faults.first().copied().unwrap_or(0);
        self.law(FIRST_FAULT, named == due);
    }

    /// A call with no numbers yet.
    pub fn bare(&mut self, name: Name, r: u32, buffer: Vec<u8>) -> Call {
        Call {
            name,
            r,
            integer: 0,
            first: 0,
            a: 0,
            b: 0,
            buffer,
            before: self.rng.next_u64(),
            nulls: self.rng.once_in(2),
        }
    }

    /// The splitting of an integer into a buffer of this length, filled with anything.
    pub fn split_call(&mut self, r: u32, integer: u64, length: usize) -> Call {
        let buffer = self.rng.bytes(length);
        Call {
            integer,
            ..self.bare(Name::Split, r, buffer)
        }
    }

    /// The joining of these residues.
    pub fn join_call(&mut self, r: u32, residues: &[u8]) -> Call {
        self.bare(Name::Join, r, residues.to_vec())
    }

    /// The residues that the engine makes of an integer.
    pub fn split(&mut self, r: u32, integer: u64) -> Option<Vec<u8>> {
        let call = self.split_call(r, integer, r as usize);
        let after = self.make(&call).engines;
        let residues = || after.loan.buffer.content().to_vec();
        (after.answer == ACCEPTED).then(residues)
    }

    /// The integer that the engine makes of residues.
    pub fn join(&mut self, r: u32, residues: &[u8]) -> Option<u64> {
        let call = self.join_call(r, residues);
        let after = self.make(&call).engines;
        (after.answer == ACCEPTED).then_some(after.loan.integer[0])
    }
}

//! The calls for two, made of both programs: whole rounds, calls with faults, and sequences of
//! garblings with one meter.

mod bytes;
mod case;
mod difference;
mod due;
mod engine;
mod example;
mod faults;
mod garblings;
mod gates;
mod laws;
mod lengths;
mod loose;
mod offsets;
mod order;
mod owners;
mod play;
mod reopened;
mod run;
mod seats;
mod second;
mod selectors;
mod sequence;
mod step;
mod tally;

pub use run::{one, run};

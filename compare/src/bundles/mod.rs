//! Whole numbers over the wires, made of both programs: integers split and joined, parts written,
//! with faults and without, and circuits with parts played as whole rounds.

mod call;
mod case;
mod circuit;
mod counts;
mod difference;
mod engine;
mod faults;
mod laws;
mod loose;
mod part;
mod run;
mod second;
mod sweep;
mod tally;

pub use run::{one, run};

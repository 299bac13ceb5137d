//! Writing circuit files from records and taking them back, made of both programs: good lists and
//! faulty ones, buffers of every length, round trips, and the reader beside the writer.

mod call;
mod case;
mod difference;
mod engine;
mod laws;
mod lent;
mod run;
mod seats;
mod second;
mod tally;

pub use run::{one, run};

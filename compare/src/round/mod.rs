//! The calls of a round, made of both programs: whole rounds, calls with faults, and sequences of
//! garblings with one meter.

mod account_tally;
pub mod accounts;
mod again;
mod caller;
mod carry;
mod chain;
mod copies;
pub mod difference;
mod due;
pub mod engine;
mod faults;
pub mod laws;
mod loose;
mod old_layouts;
mod order;
mod readers;
mod reopened;
mod run;
pub mod second;
mod sequence;
mod several;
mod squares;
mod step;
mod strangers;
mod tally;
mod unread;

pub use account_tally::{ABOVE, above};
pub use caller::make;
pub use chain::{Made, play};
pub use difference::Difference;
pub use faults::high;
pub use run::{one, run};
pub use step::{Name, Step};

//! The calls of the garbling engine, written a second time from the specification alone.
//!
//! Nothing here knows the engine: it is a second opinion, and the program `compare` sets the two
//! side by side.

pub mod bundle;
#[cfg(test)]
mod bundle_tests;
pub mod circuit;
pub mod contribution;
#[cfg(test)]
mod copy_tests;
pub mod decode;
pub mod garble;
pub mod generate;
pub mod inputs;
pub mod keccak;
pub mod meter;
#[cfg(test)]
mod named_tests;
pub mod open;
pub mod pad;
pub mod pair;
#[cfg(test)]
mod pair_refusal_tests;
#[cfg(test)]
mod pair_tests;
pub mod plain;
pub mod price_sheet;
pub mod record;
#[cfg(test)]
mod refusal_tests;
pub mod rng;
#[cfg(test)]
mod round_tests;
pub mod session;
pub mod shake;
#[cfg(test)]
mod square_tests;
pub mod word;
pub mod writer;
#[cfg(test)]
mod writer_tests;

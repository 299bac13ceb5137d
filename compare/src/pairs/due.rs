//! What a thorough run must have met, heading by heading.

use super::{
    bytes, garblings, gates, lengths, offsets, owners, reopened, seats, selectors, sequence,
};
use crate::counts::Due;
use crate::round::ABOVE;
use crate::round::accounts::{ACCEPTED, SORTS};
use compare::generate::circuits::all_moduli;
use compare::generate::round_numbers::has_different_bytes;

pub const KEY_LENGTHS: &str = "right rounds with rows";
pub const WITH_ROWS: &str = "by key length";

pub const ROUND_NUMBERS: &str = "right rounds with rows by round number";

/// A sort of round numbers, by its name.
type Numbers = (&'static str, fn(u32) -> bool);

/// The sorts of round numbers with which whole rounds must be played.
pub const NUMBERS: [Numbers; 5] = [
    ("0", |round| round == 0),
    ("1", |round| round == 1),
    ("2^32 - 1", |round| round == u32::MAX),
    ("four different bytes", has_different_bytes),
    ("any other", |round| {
        !(matches!(round, 0 | 1 | u32::MAX) || has_different_bytes(round))
    }),
];

pub fn all() -> Vec<Due> {
    let accounts: Vec<u32> = (0..8).collect();
    let once = vec![0];
    let named = |sorts: &[&str]| sorts.iter().map(|sort| String::from(*sort)).collect();
    let due = |heading, sorts, numbers: &[u32]| Due {
        heading,
        sorts,
        numbers: numbers.to_vec(),
    };
    let key_lengths: Vec<u32> = (1..=128).collect();
    let numbers = NUMBERS.map(|(sort, _)| sort);
    vec![
        due(gates::HEADING, named(&gates::SORTS), &all_moduli()),
        due(gates::CIRCUITS, named(&gates::SORTS_OF_CIRCUITS), &once),
        due(KEY_LENGTHS, named(&[WITH_ROWS]), &key_lengths),
        due(ROUND_NUMBERS, named(&numbers), &once),
        due(reopened::HEADING, reopened::sorts(), &once),
        due(lengths::HEADING, lengths::sorts(), &once),
        due(bytes::HEADING, bytes::sorts(), &once),
        due(offsets::HEADING, offsets::names(), &all_moduli()),
        due(offsets::HEADING_OF_FIRSTS, offsets::sorts(), &once),
        due(owners::HEADING, owners::sorts(), &owners::OWNERS),
        due(selectors::HEADING, selectors::sorts(), &once),
        due(seats::HEADING, seats::sorts(), &once),
        due(seats::DECODED, named(&seats::SORTS_OF_DECODED), &once),
        due(garblings::BY_ACCOUNT, named(&SORTS), &accounts),
        due(garblings::ROUNDS_BY_ACCOUNT, named(&ACCEPTED), &accounts),
        due(garblings::ABOVE_7, named(&ABOVE), &once),
        due(sequence::HEADING, named(&sequence::SORTS), &once),
    ]
}

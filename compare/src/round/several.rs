//! Calls refused by 16 or 18 with several bytes too large: they alone show which byte is named.

use super::step::{Name, Step};
use compare::circuit::read;

/// A sort of such calls, and whether the call at hand is of it.
type Sort = (&'static str, bool);

/// The sorts that a call refused by this number can be of, and whether it is.
pub fn sorts(step: &Step, number: u32) -> Vec<Sort> {
    match (step.name, number) {
        (Name::Garble, 16) => of_all_contributions(step),
        (_, 16) => vec![("in the contribution", high(step, 0).len() > 1)],
        (_, 18) => of_keys_and_rows(step),
        _ => Vec::new(),
    }
}

/// The places of the bytes of a buffer that are not below their modulus.
fn high(step: &Step, buffer: usize) -> Vec<usize> {
    let circuit = read(&step.file).expect("the file is judged before");
    let (bytes, moduli) = (&step.buffers[buffer], &step.moduli(&circuit)[buffer]);
    let places = 0..bytes.len();
    places.filter(|at| bytes[*at] >= moduli[*at]).collect()
}

fn of_all_contributions(step: &Step) -> Vec<Sort> {
    let each = step.buffers[0].len() / step.n as usize;
    let owners: Vec<usize> = high(step, 0).iter().map(|at| at / each).collect();
    vec![
        ("in one contribution", owners.get(1) == Some(&owners[0])),
        ("in two contributions", owners.last() != Some(&owners[0])),
    ]
}

fn of_keys_and_rows(step: &Step) -> Vec<Sort> {
    let (keys, rows) = (high(step, 2), high(step, 3));
    let lower = |key: &usize| rows.iter().any(|row| row < key);
    let below = keys.first().is_some_and(lower);
    vec![
        ("in the keys", keys.len() > 1),
        ("in the rows alone", keys.is_empty() && rows.len() > 1),
        ("in rows below the first key byte", below),
    ]
}

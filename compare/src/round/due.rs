//! What a thorough run must have met of squares, of copies and of the seats that outputs name, heading
//! by heading.

use super::{again, copies, old_layouts, order, readers, squares, strangers, unread};
use crate::counts::Due;

pub fn all() -> Vec<Due> {
    let named = |sorts: &[&str]| sorts.iter().map(|sort| String::from(*sort)).collect();
    let due = |heading, sorts, numbers: &[u32]| Due {
        heading,
        sorts,
        numbers: numbers.to_vec(),
    };
    let key_lengths: Vec<u32> = (1..=128).collect();
    vec![
        due(squares::HEADING, named(&squares::SORTS), &squares::moduli()),
        due(copies::HEADING, named(&copies::SORTS), &key_lengths),
        due(copies::CIRCUITS, named(&copies::SORTS_OF_CIRCUITS), &[0]),
        due(old_layouts::HEADING, old_layouts::sorts(), &[0]),
        due(readers::HEADING, named(&readers::SORTS), &readers::PARTIES),
        due(
            readers::BY_SEAT,
            named(&readers::SORTS_BY_SEAT),
            &readers::SEATS,
        ),
        due(strangers::HEADING, strangers::sorts(), &strangers::SEATS),
        due(order::HEADING, order::sorts(), &[0]),
        due(unread::HEADING, named(&unread::SORTS), &[0]),
        due(again::HEADING, named(&again::SORTS), &[0]),
    ]
}

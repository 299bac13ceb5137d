//! Who may read what: what a round that came out right shows of the seats that its outputs name.

use super::caller::Caller;
use super::chain::Round;
use super::laws::SHEETS_WRITTEN;
use crate::counts::Counts;
use compare::circuit::{Circuit, Output, read};
use compare::garble::UNREAD;
use compare::generate::settings::Setting;
use std::collections::BTreeSet;

pub const HEADING: &str = "right rounds by number of parties 2, 3, ... 8";
pub const BY_SEAT: &str = "right rounds by seat 0, 1, ... 7";

pub const PARTIES: [u32; 7] = [2, 3, 4, 5, 6, 7, 8];
pub const SEATS: [u32; 8] = [0, 1, 2, 3, 4, 5, 6, 7];

/// Each must be met with every number of parties.
pub const SORTS: [&str; 6] = [
    "an output that names nobody",
    "an output that names everybody",
    "an output for one party alone",
    "an output that some may not read",
    "a party that reads nothing",
    "a wire that is output for some and for others",
];

/// Each must be met with every seat.
pub const SORTS_BY_SEAT: [&str; 3] = [
    "an output that names it",
    "an output that it may not read",
    "an output that it alone may not read",
];

/// Counts a round that came out right.
pub fn count(setting: &Setting, counts: &mut Counts) {
    let circuit = read(&setting.file).expect("an accepted circuit");
    let n = setting.n;
    counts.add_met(HEADING, &SORTS, &sorts(&circuit, n), n);
    for seat in 0..n {
        let is = sorts_of_seat(&circuit, n, seat);
        counts.add_met(BY_SEAT, &SORTS_BY_SEAT, &is, seat);
    }
}

fn readers(output: &Output, n: u32) -> usize {
    (0..n).filter(|party| output.is_for(*party)).count()
}

/// Which of the sorts a circuit for n parties is of.
fn sorts(circuit: &Circuit, n: u32) -> [bool; 6] {
    let any = |is: &dyn Fn(&Output) -> bool| circuit.outputs.iter().any(is);
    let everybody = n as usize;
    let different: BTreeSet<&Output> = circuit.outputs.iter().collect();
    let wires: BTreeSet<u16> = circuit.outputs.iter().map(|output| output.wire).collect();
    let reads = |party: u32| any(&|output| output.is_for(party));
    [
        any(&|output| output.named == 0),
        any(&|output| output.named != 0 && readers(output, n) == everybody),
        any(&|output| readers(output, n) == 1),
        any(&|output| readers(output, n) < everybody),
        !(0..n).all(reads),
        wires.len() < different.len(),
    ]
}

/// Which of the sorts it is of for one of them.
fn sorts_of_seat(circuit: &Circuit, n: u32, seat: u32) -> [bool; 3] {
    let outputs = circuit.outputs.iter();
    let [named, unread] = [1, 0].map(|bit| {
        let is = |output: &&Output| output.named != 0 && output.named >> seat & 1 == bit;
        outputs.clone().filter(is).collect::<Vec<&Output>>()
    });
    let all_others = |output: &&Output| readers(output, n) == n as usize - 1;
    [
        !named.is_empty(),
        !unread.is_empty(),
        unread.iter().any(all_others),
    ]
}

/// Looks at the engine's sheets by themselves: 255 where a party may not read, and elsewhere the same
/// mask on all of them.
pub fn look_at_sheets(setting: &Setting, round: &Round, caller: &mut Caller) {
    let circuit = read(&setting.file).expect("an accepted circuit");
    let holds = |(at, output): (usize, &Output)| {
        let read: BTreeSet<u8> = (0..setting.n)
            .filter(|party| output.is_for(*party))
            .map(|party| round.sheets[party as usize][at])
            .collect();
        let unread = (0..setting.n)
            .filter(|party| !output.is_for(*party))
            .all(|party| round.sheets[party as usize][at] == UNREAD);
        unread && read.len() == 1 && read.iter().all(|mask| *mask < circuit.modulus(output.wire))
    };
    caller.law(
        SHEETS_WRITTEN,
        circuit.outputs.iter().enumerate().all(holds),
    );
}

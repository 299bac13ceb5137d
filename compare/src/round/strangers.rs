//! Calls on circuits whose outputs name seats at or above n.

use super::caller::Caller;
use super::laws::FIRST_STRANGER;
use super::step::{NAMES, Step};
use crate::call::{Answer, Call};
use crate::{engine, second};
use compare::circuit::read;
use compare::generate::named::{named_beyond, named_from, put_named};
use compare::rng::Rng;

pub const HEADING: &str = "28 by the lowest such seat 2, 3, ... 7";

/// The seats that fewer than eight parties can leave empty.
pub const SEATS: [u32; 6] = [2, 3, 4, 5, 6, 7];

/// Whether there are such seats in later outputs too.
const BESIDE: [&str; 2] = ["alone", "before others"];

const COUNTING: &str = "inputs_of";

/// Each must be met with every seat.
pub fn sorts() -> Vec<String> {
    let names = NAMES.map(|name| name.text()).into_iter().chain([COUNTING]);
    names
        .flat_map(|name| BESIDE.map(|beside| format!("{name} {beside}")))
        .collect()
}

/// Makes one call of each sort on a round's circuit, with such a seat in an output and perhaps in later
/// ones. Which seat it is goes by turns.
pub fn play(steps: &[Step], rng: &mut Rng, caller: &mut Caller) {
    let Step { n, ref file, .. } = steps[0];
    let circuit = read(file).expect("an accepted circuit");
    if n == 8 {
        return;
    }
    let last = circuit.outputs.len() - 1;
    let seat = n + (caller.case % u64::from(8 - n)) as u32;
    let first = rng.below(last + 1);
    let others = usize::from(first < last) * rng.below(3);
    let mut strange = file.clone();
    let named = named_from(n, seat, rng);
    put_named(&mut strange, &circuit, first, named);
    for _ in 0..others {
        let later = rng.between(first + 1, last);
        let named = named_beyond(n, rng);
        put_named(&mut strange, &circuit, later, named);
    }
    let due = Answer {
        number: 28,
        place: first,
    };
    let beside = BESIDE[others.min(1)];
    for name in NAMES {
        let same: Vec<&Step> = steps.iter().filter(|step| step.name == name).collect();
        let step = Step {
            file: strange.clone(),
            ..rng.pick(&same).clone()
        };
        let answer = caller.make(&step).engines.answer;
        met(name.text(), beside, seat, answer == due, caller);
    }
    let call = Call::InputsOf {
        n,
        party: rng.below(n as usize) as u32,
    };
    let (ours, engines) = (second::run(&strange, &call), engine::run(&strange, &call));
    let holds = ours == engines && engines.answer == due;
    met(COUNTING, beside, seat, holds, caller);
}

/// Counts a call, and whether it named the first such output.
fn met(name: &str, beside: &str, seat: u32, holds: bool, caller: &mut Caller) {
    caller.law(FIRST_STRANGER, holds);
    if holds {
        let sort = format!("{name} {beside}");
        caller.tally.counts.add(HEADING, sort, seat);
    }
}

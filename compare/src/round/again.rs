//! A circuit garbled again with other contributions: a seat gets the sheet that it had, where the masks
//! of all that it may read are as they were.

use super::caller::Caller;
use super::chain::Round;
use super::laws::SAME_SHEET;
use super::step::{Name, Step};
use crate::call::ACCEPTED;
use compare::circuit::{Circuit, read};
use compare::generate::equal_masks::{least_reader, with_equal_masks};
use compare::generate::settings::Setting;
use compare::rng::Rng;
use compare::session::check_seats;

pub const HEADING: &str = "garbled again with equal masks of what a seat may read";

pub const SORTS: [&str; 4] = [
    "all sheets the same",
    "the sheet of another seat not the same",
    "with more or fewer parties",
    "with another key length",
];

/// Of a circuit whose garbling takes more permutations this is left out, for the sake of the run's time.
const MOST_COST: u64 = 10_000;

pub fn play(setting: &Setting, round: &Round, rng: &mut Rng, caller: &mut Caller) {
    let circuit = read(&setting.file).expect("an accepted circuit");
    let any = rng.below(setting.n as usize) as u32;
    let seat = rng.pick(&[any, least_reader(&circuit, setting.n)]);
    let mut again = Setting {
        round: rng.next_u32(),
        n: another_n(&circuit, setting.n, seat, rng),
        k: rng.pick(&[setting.k, setting.k, 1, 2, 3]),
        ..setting.clone()
    };
    if again.cost() > MOST_COST {
        return;
    }
    again.contributions = with_equal_masks(&circuit, setting, (again.n, again.k), seat, rng);
    let given = vec![again.contributions.clone()];
    let step = Step::new(&again, &circuit, (Name::Garble, 0), given, rng);
    let after = caller.make(&step).engines;
    let sheets = after.loan.buffers[3]
        .content()
        .chunks(circuit.outputs.len());
    let sheets: Vec<&[u8]> = sheets.collect();
    let seat = seat as usize;
    let same = after.answer == ACCEPTED && sheets[seat] == round.sheets[seat];
    caller.law(SAME_SHEET, same);
    let mut both = sheets.iter().zip(&round.sheets);
    let all_same = both.all(|(one, other)| one == other);
    let is = [
        all_same,
        !all_same,
        again.n != setting.n,
        again.k != setting.k,
    ];
    if same {
        caller.tally.counts.add_met(HEADING, &SORTS, &is, 0);
    }
}

/// As many parties as before, or any number that the circuit and the seat allow.
fn another_n(circuit: &Circuit, n: u32, seat: u32, rng: &mut Rng) -> u32 {
    let allowed = |n: &u32| *n > seat && check_seats(circuit, *n).is_ok();
    let possible: Vec<u32> = (2..=8).filter(allowed).collect();
    let any = rng.pick(&possible);
    rng.pick(&[n, n, any])
}

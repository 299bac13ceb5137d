//! Calls lent contributions or rows in a layout of old: their lengths are wrong.

use super::caller::Caller;
use super::chain::Round;
use super::laws::OLD_LENGTHS;
use super::step::{NAMES, Name, Step};
use crate::call::Answer;
use compare::circuit::{Circuit, read};
use compare::generate::old_layout::{LAYOUTS, Layout};
use compare::rng::Rng;

pub const HEADING: &str = "lent in an old layout, refused by 14";

const WRONG_LENGTH: Answer = Answer {
    number: 14,
    place: 0,
};

/// What is lent as it was: contributions, rows or both.
type Parts = &'static [&'static str];

const CONTRIBUTIONS: Parts = &["contributions"];
const ROWS: Parts = &["rows"];
const BOTH: Parts = &["contributions", "rows"];

/// What a call can be lent as it was: each takes contributions, and all but that for input keys rows.
fn possible(name: Name) -> &'static [Parts] {
    match name {
        Name::InputKeys => &[CONTRIBUTIONS],
        _ => &[CONTRIBUTIONS, ROWS, BOTH],
    }
}

/// The calls that are lent what has a layout.
fn names() -> impl Iterator<Item = Name> {
    NAMES.into_iter().filter(|name| name.has_contribution())
}

/// All sorts of such calls.
pub fn sorts() -> Vec<String> {
    let mut sorts = Vec::new();
    for layout in LAYOUTS {
        for name in names() {
            let parts = possible(name).iter();
            sorts.extend(parts.map(|parts| sort(name, layout, parts)));
        }
    }
    sorts
}

fn sort(name: Name, layout: Layout, parts: Parts) -> String {
    format!(
        "{} with {} {}",
        name.text(),
        parts.join(" and "),
        layout.text()
    )
}

/// Makes one call of each name in each layout that is another than now for the circuit of the round.
pub fn play(round: &Round, rng: &mut Rng, caller: &mut Caller) {
    let circuit = read(&round.steps[0].file).expect("an accepted circuit");
    let layouts = LAYOUTS.into_iter();
    for layout in layouts.filter(|layout| layout.is_another(&circuit)) {
        for name in names() {
            let same = round.steps.iter().filter(|step| step.name == name);
            let good = rng.pick(&same.collect::<Vec<&Step>>());
            let parts = rng.pick(possible(name));
            let step = in_layout(good, &circuit, (layout, parts), rng);
            let refused = caller.make(&step).engines.answer == WRONG_LENGTH;
            caller.law(OLD_LENGTHS, refused);
            if refused {
                let sort = sort(name, layout, parts);
                caller.tally.counts.add(HEADING, sort, 0);
            }
        }
    }
}

/// The call with these of its buffers as they were in a layout.
fn in_layout(
    good: &Step,
    circuit: &Circuit,
    (layout, parts): (Layout, Parts),
    rng: &mut Rng,
) -> Step {
    let mut step = good.clone();
    let (n, k) = (step.n as usize, step.k as usize);
    if parts.contains(&"contributions") {
        step.buffers[0] = layout.contributions(circuit, k, &step.buffers[0], rng);
    }
    let names = step.name.buffers();
    let rows = names.iter().position(|name| *name == "rows");
    if let (Some(rows), true) = (rows, parts.contains(&"rows")) {
        step.buffers[rows].resize(layout.total_rows(circuit) * n * k, 0);
    }
    step
}

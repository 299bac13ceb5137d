//! Calls that belong to no round.

use super::step::{NAMES, Name, Step};
use compare::circuit::read;
use compare::generate::meters::any_meter;
use compare::generate::random_file;
use compare::generate::settings::{below, contributions};
use compare::rng::Rng;

/// A call on an accepted circuit: numbers good or not, and buffers that fit them.
pub fn loose(file: &[u8], rng: &mut Rng) -> Step {
    let circuit = read(file).expect("an accepted circuit");
    let name = rng.pick(&NAMES);
    let n = rng.pick(&[0, 1, 2, 2, 3, 3, 4, 9]);
    let k = rng.pick(&[0, 1, 1, 2, 3, 129]);
    let party = rng.below(10) as u32;
    let mut step = Step {
        name,
        file: file.to_vec(),
        n,
        k,
        party,
        round: rng.next_u32(),
        account: rng.below(10) as u32,
        meter: any_meter(rng),
        buffers: Vec::new(),
        nulls: rng.once_in(2),
    };
    step.buffers = step
        .moduli(&circuit)
        .iter()
        .map(|p| below(p, rng))
        .collect();
    if k > 0 && name.has_contribution() {
        let parties = if name == Name::Garble { n } else { 1 };
        step.buffers[0] = contributions(&circuit, parties as usize, k as usize, rng);
    }
    let lengths = name.lengths(&circuit, n as usize, k as usize, party);
    for length in &lengths[step.buffers.len()..] {
        step.buffers.push(rng.bytes(*length));
    }
    step
}

/// A call on a file of any sort, most of which are refused, with buffers of any length.
pub fn on_any_file(rng: &mut Rng) -> Step {
    let name = rng.pick(&NAMES);
    let buffers = name.buffers().iter().map(|_| {
        let length = rng.below(9);
        rng.bytes(length)
    });
    Step {
        name,
        buffers: buffers.collect(),
        file: random_file(rng),
        n: rng.below(10) as u32,
        k: rng.below(4) as u32,
        party: rng.below(4) as u32,
        round: rng.next_u32(),
        account: rng.below(10) as u32,
        meter: any_meter(rng),
        nulls: rng.once_in(2),
    }
}

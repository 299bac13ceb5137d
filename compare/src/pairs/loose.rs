//! Calls that belong to no round.

use super::step::{Name, Step};
use compare::circuit::read;
use compare::generate::circuits::accepted;
use compare::generate::meters::any_meter;
use compare::generate::pair_settings::draw;
use compare::generate::random_file;
use compare::generate::settings::below;
use compare::rng::Rng;
use compare::word;

/// A call on a circuit that may have selectors and owners of any number: key lengths good or not, and
/// buffers that fit them.
pub fn loose(name: Name, rng: &mut Rng) -> Step {
    let file = word::file(&accepted(rng));
    let circuit = read(&file).expect("an accepted circuit");
    let k = rng.pick(&[0, 1, 1, 2, 3, 129]);
    let mut step = Step {
        k,
        account: rng.below(10) as u32,
        buffers: Vec::new(),
        ..bare(name, file.clone(), rng)
    };
    let moduli = step.moduli(&circuit);
    step.buffers = moduli.iter().map(|p| below(p, rng)).collect();
    if k > 0 && name.has_draw() {
        step.buffers[0] = draw(&circuit, k as usize, rng);
    }
    for length in &name.lengths(&circuit, k as usize)[step.buffers.len()..] {
        step.buffers.push(rng.bytes(*length));
    }
    step
}

/// A call on a file of any sort, most of which are refused, with buffers of any length.
pub fn on_any_file(name: Name, rng: &mut Rng) -> Step {
    let file = random_file(rng);
    bare(name, file, rng)
}

fn bare(name: Name, file: Vec<u8>, rng: &mut Rng) -> Step {
    let mut buffers = Vec::new();
    for _ in name.buffers() {
        let length = rng.below(9);
        buffers.push(rng.bytes(length));
    }
    Step {
        name,
        file,
        k: rng.below(4) as u32,
        round: rng.next_u32(),
        account: rng.below(10) as u32,
        meter: any_meter(rng),
        before: rng.next_u32(),
        buffers,
        nulls: rng.once_in(2),
    }
}

//! Calls with every choice of their faults: the first of them, in the order of the checks, must be the
//! one named.

use super::case::Case;
use super::laws::FIRST_FAULT;
use super::step::{NAMES, Name, Step};
use crate::round::high;
use compare::circuit::{Circuit, read};
use compare::generate::meters::{without_space, wrong_account};
use compare::generate::selects::with_selects;
use compare::pair::total_rows;
use compare::rng::Rng;
use compare::word;

/// The faults that a call can have, in the order of its checks. Of those of a file there is 10 alone:
/// it is the last of them, so that whatever else is wrong comes after it.
pub fn faults_of(name: Name) -> Vec<u32> {
    [&[10], name.refusals()].concat()
}

/// How many choices of faults each case makes of a call; after 64 cases each has had its turn.
fn choices_in_a_case(name: Name) -> usize {
    (1 << faults_of(name).len()) / 64 + 1
}

/// Every choice of a call's faults but that of none.
pub fn choices(name: Name) -> impl Iterator<Item = Vec<u32>> {
    let faults = faults_of(name);
    let choice = move |choice: usize| {
        let chosen = faults.iter().enumerate();
        let chosen = chosen.filter(|(at, _)| choice >> at & 1 == 1);
        chosen.map(|(_, fault)| *fault).collect()
    };
    (1..1 << faults_of(name).len()).map(choice)
}

impl Case<'_> {
    /// Makes calls with faults of those of a round, which have none.
    pub fn play_choices(&mut self, good: &[Step]) {
        for (name, good) in NAMES.into_iter().zip(good) {
            let choices: Vec<Vec<u32>> = choices(name).collect();
            for turn in self.turns(choices_in_a_case(name), choices.len()) {
                let mut faults = choices[turn].clone();
                let (step, impossible) = faulty(good, &faults, &mut self.rng);
                faults.retain(|fault| !impossible.contains(fault));
                let named = self.make(&step).engines.answer.number;
                let due = faults.first().copied().unwrap_or(0);
                if self.law(FIRST_FAULT, named == due) {
                    self.tally.count_choice(name, faults);
                }
            }
        }
    }
}

/// A call with these faults, and those of them that cannot be put into it: no rows always have space,
/// and a circuit that is full of inputs takes no selector.
pub fn faulty(good: &Step, faults: &[u32], rng: &mut Rng) -> (Step, Vec<u32>) {
    let circuit = read(&good.file).expect("an accepted circuit");
    let mut step = good.clone();
    let mut impossible = Vec::new();
    // The account first, as the meter goes by it. Then the last checks first: so lengths come after
    // the bytes that are changed, and what is wrong in the file after all that goes by its circuit.
    if faults.contains(&25) {
        step.account = wrong_account(good.account, rng);
    }
    for fault in faults.iter().rev() {
        let can_be = match fault {
            10 => put_wrong_end(&mut step, rng),
            26 => put_selectors(&mut step, rng),
            11 => put_key_length(&mut step, rng),
            13 => put_stranger(&mut step, &circuit, rng),
            14 => put_length(&mut step, rng),
            15 => {
                // Input keys are lent values after the draw, decoding bytes of both sorts alone.
                let buffer = if step.name.has_draw() {
                    1
                } else {
                    rng.below(2)
                };
                put_high_byte(&mut step, &circuit, buffer, rng)
            }
            16 => put_high_byte(&mut step, &circuit, 0, rng),
            18 => {
                let buffer = rng.pick(&[0, 0, usize::from(!step.buffers[1].is_empty())]);
                put_high_byte(&mut step, &circuit, buffer, rng)
            }
            27 => put_offset(&mut step, &circuit, rng),
            21 => put_full_total(&mut step, &circuit, rng),
            _ => true,
        };
        if !can_be {
            impossible.push(*fault);
        }
    }
    (step, impossible)
}

/// A byte or a word after the end, or none of it there.
fn put_wrong_end(step: &mut Step, rng: &mut Rng) -> bool {
    match rng.below(4) {
        0 => step.file.push(0),
        1 => step.file.extend(word::END.to_le_bytes()),
        2 => step.file.extend([0; 3]),
        _ => step.file.truncate(step.file.len() - rng.between(1, 4)),
    }
    true
}

fn put_selectors(step: &mut Step, rng: &mut Rng) -> bool {
    let with = with_selects(&step.file, rng);
    let can_be = with.is_some();
    step.file = with.unwrap_or(step.file.clone());
    can_be
}

/// Some would do if they were cut to fewer bits.
fn put_key_length(step: &mut Step, rng: &mut Rng) -> bool {
    let k = step.k;
    step.k = rng.pick(&[0, 129, 256 + k, 65_536 + k, 1 << 31 | k, u32::MAX]);
    true
}

/// An input of a third party.
fn put_stranger(step: &mut Step, circuit: &Circuit, rng: &mut Rng) -> bool {
    let input = rng.below(circuit.inputs);
    put_owner(&mut step.file, circuit, input, rng.between(2, 7) as u32);
    true
}

/// Another owner for an input; the words of the inputs stand right after the head.
pub fn put_owner(file: &mut [u8], circuit: &Circuit, input: usize, owner: u32) {
    let modulus = circuit.wires[input].modulus.into();
    let word = word::file(&[word::input(owner, modulus)]);
    file[4 * (1 + input)..][..4].copy_from_slice(&word);
}

/// A buffer that is a byte longer or shorter, or has twice its length.
fn put_length(step: &mut Step, rng: &mut Rng) -> bool {
    let buffer = rng.below(step.buffers.len());
    let buffer = &mut step.buffers[buffer];
    let length = match (buffer.len(), rng.below(4)) {
        (0, _) => 1,
        (length, 0 | 1) => length - 1,
        (length, 2) => 2 * length,
        (length, _) => length + 1,
    };
    buffer.resize(length, 0);
    true
}

/// A byte not below its modulus; in a draw one of a zero key, so that offsets can have faults of their
/// own.
fn put_high_byte(step: &mut Step, circuit: &Circuit, buffer: usize, rng: &mut Rng) -> bool {
    let moduli = &step.moduli(circuit)[buffer];
    let first = match (step.name.has_draw(), buffer) {
        (true, 0) => step.k as usize * circuit.moduli().len(),
        _ => 0,
    };
    let at = rng.between(first, moduli.len() - 1);
    step.buffers[buffer][at] = high(rng, moduli[at]);
    true
}

/// An offset below its modulus that does not begin with 1.
fn put_offset(step: &mut Step, circuit: &Circuit, rng: &mut Rng) -> bool {
    let moduli = circuit.moduli();
    let at = rng.below(moduli.len());
    let other = rng.below(usize::from(moduli[at]) - 1) as u8;
    step.buffers[0][at * step.k as usize] = if other >= 1 { other + 1 } else { 0 };
    true
}

fn put_full_total(step: &mut Step, circuit: &Circuit, rng: &mut Rng) -> bool {
    let rows = total_rows(circuit);
    step.meter = without_space(step.account, rows, rng);
    rows > 0
}

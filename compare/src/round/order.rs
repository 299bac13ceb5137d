//! Calls with a choice of faults: the first of them, in the order of the checks, must be the one named.

use super::caller::Caller;
use super::faults::high;
use super::laws::FIRST_FAULT;
use super::step::{NAMES, Name, Step};
use crate::counts::Counts;
use compare::circuit::{Circuit, read};
use compare::contribution::combined;
use compare::generate::meters::{without_space, wrong_account};
use compare::generate::named::{named_beyond, put_named};
use compare::rng::Rng;
use compare::word;

/// How many choices each case makes of a call; of garbling's 255 each has had its turn after 32 cases.
const CHOICES: u64 = 8;

pub const HEADING: &str = "28 beside another fault";

/// The faults that a call can have, in the order of its checks. Which rows open to nothing is left to
/// chance, so that 20 is none of them.
fn faults_of(name: Name) -> Vec<u32> {
    let faults = name.refusals().iter().copied();
    faults.filter(|fault| *fault != 20).collect()
}

/// Makes calls with faults of those of a round, which have none.
pub fn play(steps: &[Step], rng: &mut Rng, caller: &mut Caller) {
    for name in NAMES {
        let same: Vec<&Step> = steps.iter().filter(|step| step.name == name).collect();
        for turn in 0..CHOICES {
            play_choice(rng.pick(&same), turn, rng, caller);
        }
    }
}

/// Makes the call with the faults that have their turn, as far as they are possible.
fn play_choice(good: &Step, turn: u64, rng: &mut Rng, caller: &mut Caller) {
    let order = faults_of(good.name);
    let all = (1 << order.len()) - 1;
    let choice = (caller.case % all * CHOICES + turn) % all + 1;
    let chosen = order.iter().enumerate();
    let chosen = chosen.filter(|(at, _)| choice >> at & 1 == 1);
    let possible = possible(good);
    let faults = chosen.map(|(_, number)| *number);
    let faults: Vec<u32> = faults.filter(|fault| possible.contains(fault)).collect();
    if let Some(first) = faults.first() {
        let step = faulty(good, &faults, rng);
        let named = caller.make(&step).engines.answer.number;
        caller.law(FIRST_FAULT, named == *first);
        count(good.name, &faults, named, &mut caller.tally.counts);
        if good.name == Name::Garble {
            caller.tally.accounts.count_choice(&faults, named);
        }
    }
}

/// The sorts of such calls with 28 among their faults: alone, and with each other, each in each call.
pub fn sorts() -> Vec<String> {
    let sorts = |name: Name| -> Vec<String> {
        let others = faults_of(name).into_iter();
        others.map(|other| sort(name, other)).collect()
    };
    NAMES.into_iter().flat_map(sorts).collect()
}

fn sort(name: Name, other: u32) -> String {
    match other {
        28 => format!("{} alone", name.text()),
        _ => format!(
            "{} with {other}, {} named",
            name.text(),
            first_of(name, other)
        ),
    }
}

/// Of 28 and another fault, the one that a call looks at first.
fn first_of(name: Name, other: u32) -> u32 {
    let pair = |fault: &&u32| [28, other].contains(fault);
    let first = name.refusals().iter().find(pair);
    *first.expect("28 is one of them")
}

/// Counts a call into which these faults were put, if 28 is one of them and it was seen which of it and
/// another comes first.
fn count(name: Name, faults: &[u32], named: u32, counts: &mut Counts) {
    if !faults.contains(&28) {
        return;
    }
    for other in faults {
        let alone = *other != 28 || faults.len() == 1;
        if alone && named == first_of(name, *other) {
            counts.add(HEADING, sort(name, *other), 0);
        }
    }
}

/// The faults that can be put into a call: there is no stranger to eight parties, no rows always have
/// space, and a party without inputs has no values.
pub fn possible(good: &Step) -> Vec<u32> {
    let circuit = read(&good.file).expect("an accepted circuit");
    let rows = circuit.counts().rows;
    let can_be = |fault: &u32| match fault {
        13 | 28 => good.n < 8,
        15 => !good.buffers[0].is_empty(),
        21 => rows > 0,
        _ => true,
    };
    faults_of(good.name).into_iter().filter(can_be).collect()
}

/// A call with these faults, of those that can be put into it.
pub fn faulty(good: &Step, faults: &[u32], rng: &mut Rng) -> Step {
    let circuit = read(&good.file).expect("an accepted circuit");
    let mut step = good.clone();
    // The account first, as the meter goes by it. Then the last checks first: so lengths come after
    // all that goes by them, and numbers and the file at the end.
    if faults.contains(&25) {
        step.account = wrong_account(good.account, rng);
    }
    for fault in faults.iter().rev() {
        match fault {
            11 => put_number_out_of_range(&mut step, rng),
            12 => put_party(&mut step, good.n, rng),
            13 => put_stranger(&mut step, &circuit, rng),
            28 => put_named_stranger(&mut step, &circuit, rng),
            14 => put_length(&mut step, rng),
            15 => put_high_value(&mut step, &circuit, rng),
            16 => put_high_byte(&mut step, &circuit, rng),
            17 => put_zero_offset(&mut step, &circuit, rng),
            18 => put_high_key_or_row(&mut step, &circuit, rng),
            19 => put_other_key(&mut step, &circuit, rng),
            21 => step.meter = without_space(step.account, circuit.counts().rows, rng),
            _ => {}
        }
    }
    step
}

/// The number of parties or the key length, where that is taken; some would do if they were cut to
/// fewer bits.
fn put_number_out_of_range(step: &mut Step, rng: &mut Rng) {
    let Step { n, k, .. } = *step;
    if step.name.has_contribution() && rng.once_in(2) {
        step.k = rng.pick(&[0, 129, 256 + k, 65_536 + k, 1 << 31 | k, u32::MAX]);
    } else {
        step.n = rng.pick(&[0, 1, 9, 256 + n, 65_536 + n, 1 << 31 | n, u32::MAX]);
    }
}

/// A party that is none of so many.
fn put_party(step: &mut Step, n: u32, rng: &mut Rng) {
    let low = step.party;
    step.party = rng.pick(&[n, n + 1, 8, 255, 256 + low, 1 << 31 | low, u32::MAX]);
}

/// An input of a party that does not take part.
fn put_stranger(step: &mut Step, circuit: &Circuit, rng: &mut Rng) {
    let input = rng.below(circuit.inputs);
    let owner = rng.between(step.n as usize, 7) as u32;
    let modulus = circuit.wires[input].modulus.into();
    let word = word::file(&[word::input(owner, modulus)]);
    // The words of the inputs stand right after the head.
    step.file[4 * (1 + input)..][..4].copy_from_slice(&word);
}

/// An output that names a seat at or above n.
fn put_named_stranger(step: &mut Step, circuit: &Circuit, rng: &mut Rng) {
    let output = rng.below(circuit.outputs.len());
    let named = named_beyond(step.n, rng);
    put_named(&mut step.file, circuit, output, named);
}

/// A buffer that is a byte longer or shorter, or has twice its length.
fn put_length(step: &mut Step, rng: &mut Rng) {
    let buffer = rng.below(step.buffers.len());
    let buffer = &mut step.buffers[buffer];
    let length = match (buffer.len(), rng.below(4)) {
        (0, _) => 1,
        (length, 0 | 1) => length - 1,
        (length, 2) => 2 * length,
        (length, _) => length + 1,
    };
    buffer.resize(length, 0);
}

/// A value, external value or mask not below its modulus; of masks one that counts.
fn put_high_value(step: &mut Step, circuit: &Circuit, rng: &mut Rng) {
    let buffer = match step.name {
        Name::InputKeys | Name::Open => 1,
        _ => rng.below(2),
    };
    let moduli = &step.moduli(circuit)[buffer];
    let mut places: Vec<usize> = (0..moduli.len()).collect();
    if (step.name, buffer) == (Name::Decode, 1) {
        places.retain(|at| circuit.outputs[*at].is_for(step.party));
    }
    if places.is_empty() {
        // This party reads nothing: an external value in place of a mask.
        step.buffers[0][0] = high(rng, circuit.wires[0].modulus);
        return;
    }
    let at = rng.pick(&places);
    step.buffers[buffer][at] = high(rng, moduli[at]);
}

/// How many contributions a call is lent.
fn contributions(step: &Step) -> usize {
    match step.name {
        Name::Garble => step.n as usize,
        _ => 1,
    }
}

/// A byte of a record, which is no offset's, not below its modulus.
fn put_high_byte(step: &mut Step, circuit: &Circuit, rng: &mut Rng) {
    let moduli = &step.moduli(circuit)[0];
    let count = contributions(step);
    let each = moduli.len() / count;
    let offsets = step.k as usize * circuit.moduli().len();
    let at = rng.below(count) * each + rng.between(offsets, each - 1);
    step.buffers[0][at] = high(rng, moduli[at]);
}

fn put_zero_offset(step: &mut Step, circuit: &Circuit, rng: &mut Rng) {
    let (count, k) = (contributions(step), step.k as usize);
    let each = step.buffers[0].len() / count;
    let offset = rng.below(circuit.moduli().len());
    let start = rng.below(count) * each + offset * k;
    step.buffers[0][start..][..k].fill(0);
}

/// A byte of a key or, where there are any, of a row, not below its modulus.
fn put_high_key_or_row(step: &mut Step, circuit: &Circuit, rng: &mut Rng) {
    let buffer = rng.pick(&[2, 2 + usize::from(!step.buffers[3].is_empty())]);
    let moduli = &step.moduli(circuit)[buffer];
    let at = rng.below(moduli.len());
    step.buffers[buffer][at] = high(rng, moduli[at]);
}

/// The opener's own key on an input, moved by its offset.
fn put_other_key(step: &mut Step, circuit: &Circuit, rng: &mut Rng) {
    let (n, k, party) = (step.n as usize, step.k as usize, step.party as usize);
    let input = rng.below(circuit.inputs);
    let p = circuit.wires[input].modulus;
    let moduli = circuit.moduli();
    let place = moduli.iter().position(|q| *q == p).expect("in use");
    let offset = step.buffers[0][place * k..][..k].to_vec();
    let key = &mut step.buffers[2][(input * n + party) * k..][..k];
    key.copy_from_slice(&combined(p, key, 1, &offset));
}

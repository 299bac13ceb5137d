//! Calls in which bytes are too large, at any place and by any amount: the lowest is named, and one
//! of the keys before any of the rows.

use super::case::Case;
use super::laws::LOWEST_BYTE;
use super::step::{Name, Step, WITH_BUFFERS};
use crate::call::Answer;
use crate::round::high;
use compare::circuit::read;
use std::cmp::Ordering;

pub const HEADING: &str = "bytes too large";

const PLACES: [&str; 3] = ["the first byte", "the last byte", "a byte between"];
const BYTES: [&str; 3] = ["its modulus", "255", "another too large"];

/// What else is too large: nothing, or bytes at higher places.
const BESIDE: [&str; 2] = ["alone", "before others"];

const BOTH: &str = "pair_open keys, and rows at a lower place";

/// Decoding judges two buffers together.
const EITHER: [&str; 3] = [
    "pair_decode externals, and masks at a higher place",
    "pair_decode masks, and externals at a higher place",
    "pair_decode externals and masks at one place",
];

/// How many such calls each case makes.
const CALLS: usize = 6;

/// A call, a buffer that it reads, and the number by which it refuses the buffer's bytes.
const BUFFERS: [(Name, usize, u32); 7] = [
    (Name::Garble, 0, 16),
    (Name::InputKeys, 0, 16),
    (Name::InputKeys, 1, 15),
    (Name::Open, 0, 18),
    (Name::Open, 1, 18),
    (Name::Decode, 0, 15),
    (Name::Decode, 1, 15),
];

/// Which buffer, where in it, what byte, and what is beside it. There is no place after the last.
fn all() -> Vec<[usize; 4]> {
    let choice = |at: usize| [at % 7, at / 7 % 3, at / 21 % 3, at / 63];
    let can_be = |choice: &[usize; 4]| choice[1] != 1 || choice[3] == 0;
    (0..126).map(choice).filter(can_be).collect()
}

fn sort([buffer, place, byte, beside]: [usize; 4]) -> String {
    let (name, at, _) = BUFFERS[buffer];
    let (buffer, place) = (name.buffers()[at], PLACES[place]);
    let (byte, beside) = (BYTES[byte], BESIDE[beside]);
    format!("{} {buffer}, {place} is {byte}, {beside}", name.text())
}

pub fn sorts() -> Vec<String> {
    let judged_together = [BOTH].into_iter().chain(EITHER).map(String::from);
    all().into_iter().map(sort).chain(judged_together).collect()
}

impl Case<'_> {
    /// Makes calls of those of a round that have buffers.
    pub fn play_bytes(&mut self, good: &[Step]) {
        let all = all();
        for turn in self.turns(CALLS, all.len()) {
            self.play_high_byte(good, all[turn]);
        }
        self.play_high_key_and_row(&good[2]);
        self.play_high_external_and_mask(&good[3]);
    }

    fn play_high_byte(&mut self, good: &[Step], [buffer, place, byte, beside]: [usize; 4]) {
        let (name, at, number) = BUFFERS[buffer];
        let call = WITH_BUFFERS.iter().position(|other| *other == name);
        let mut step = good[call.expect("one of them")].clone();
        let circuit = read(&step.file).expect("an accepted circuit");
        let moduli = step.moduli(&circuit).swap_remove(at);
        let last = match moduli.len() {
            0 => return,
            length => length - 1,
        };
        let rng = &mut self.rng;
        let lowest = match PLACES[place] {
            "the first byte" => 0,
            "the last byte" => last,
            _ if last < 2 => return,
            _ => rng.between(1, last - 1),
        };
        // A buffer of one byte has no other.
        if beside == 1 && lowest == last {
            return;
        }
        let p = usize::from(moduli[lowest]);
        step.buffers[at][lowest] = match BYTES[byte] {
            "its modulus" => p,
            "255" => 255,
            _ => rng.between(p + 1, 254),
        } as u8;
        for _ in 0..beside * rng.between(1, 3) {
            let higher = rng.between(lowest + 1, last);
            step.buffers[at][higher] = high(rng, moduli[higher]);
        }
        let due = Answer {
            number,
            place: lowest,
        };
        let answer = self.make(&step).engines.answer;
        if self.law(LOWEST_BYTE, answer == due) {
            let sort = sort([buffer, place, byte, beside]);
            self.tally.counts.add(HEADING, sort, 0);
        }
    }

    /// A byte of the keys, and one at a lower place in the rows.
    fn play_high_key_and_row(&mut self, opening: &Step) {
        let circuit = read(&opening.file).expect("an accepted circuit");
        let moduli = opening.moduli(&circuit);
        let mut step = opening.clone();
        if moduli[0].len() < 2 || moduli[1].is_empty() {
            return;
        }
        let key = self.rng.between(1, moduli[0].len() - 1);
        let row = self.rng.below(key.min(moduli[1].len()));
        step.buffers[0][key] = high(&mut self.rng, moduli[0][key]);
        step.buffers[1][row] = high(&mut self.rng, moduli[1][row]);
        let due = Answer {
            number: 18,
            place: key,
        };
        let answer = self.make(&step).engines.answer;
        if self.law(LOWEST_BYTE, answer == due) {
            self.tally.counts.add(HEADING, BOTH, 0);
        }
    }

    /// A byte of the external values and one of the masks: the lower place of the two is named.
    fn play_high_external_and_mask(&mut self, decoding: &Step) {
        let circuit = read(&decoding.file).expect("an accepted circuit");
        let moduli = decoding.moduli(&circuit);
        let mut step = decoding.clone();
        let [external, mask] = [0, 1].map(|buffer: usize| {
            let at = self.rng.below(moduli[buffer].len());
            step.buffers[buffer][at] = high(&mut self.rng, moduli[buffer][at]);
            at
        });
        let due = Answer {
            number: 15,
            place: external.min(mask),
        };
        let answer = self.make(&step).engines.answer;
        if self.law(LOWEST_BYTE, answer == due) {
            let sort = match external.cmp(&mask) {
                Ordering::Less => EITHER[0],
                Ordering::Greater => EITHER[1],
                Ordering::Equal => EITHER[2],
            };
            self.tally.counts.add(HEADING, sort, 0);
        }
    }
}

//! Calls with faults: good calls in which something is changed, once or several times.
//!
//! Nothing here says which refusal a call must meet: that is what the two programs are asked.

use super::step::{Name, Step};
use crate::round::high;
use compare::circuit::{Circuit, read};
use compare::generate::meters::{with_space, without_space, wrong_account};
use compare::generate::named::put_any_seats;
use compare::generate::round_numbers::others;
use compare::generate::selects::with_selects;
use compare::meter::ACCOUNTS;
use compare::pair::total_rows;
use compare::rng::Rng;

/// A good call with some faults.
pub fn spoiled(good: &Step, rng: &mut Rng) -> Step {
    let mut step = good.clone();
    let circuit = read(&good.file).expect("an accepted circuit");
    let mut spoiler = Spoiler {
        moduli: good.moduli(&circuit),
        circuit: &circuit,
        rng,
    };
    for _ in 0..spoiler.rng.pick(&[1, 1, 1, 2, 2, 3, 4]) {
        spoiler.spoil(&mut step);
    }
    step
}

/// What a call was before it was spoiled.
struct Spoiler<'s> {
    circuit: &'s Circuit<'s>,
    /// The moduli of the bytes of each buffer that is only read.
    moduli: Vec<Vec<u8>>,
    rng: &'s mut Rng,
}

impl Spoiler<'_> {
    /// Puts in one fault, or what might be one.
    fn spoil(&mut self, step: &mut Step) {
        match self.rng.below(17) {
            0 => self.key_length(step),
            1 | 2 => self.length(step),
            3 => self.shifted_lengths(step),
            4..=6 => self.put(step, high),
            7..=9 => self.put(step, |rng, p| rng.below(usize::from(p)) as u8),
            10 => self.flip(step),
            11 => self.first_of_offset(step),
            12 => self.exchange(step),
            13 => self.meter(step),
            14 => self.round(step),
            15 => self.account(step),
            _ => self.file(step),
        }
    }

    /// Out of range, or with a low byte or half that is in range, or another good one.
    fn key_length(&mut self, step: &mut Step) {
        let k = step.k;
        let far = [256 + k % 256, 65_536 + k % 256, 1 << 31 | k, u32::MAX];
        let near = [0, 1, 128, 129, k.wrapping_sub(1), k.wrapping_add(1)];
        step.k = match self.rng.below(3) {
            0 => self.rng.pick(&far),
            _ => self.rng.pick(&near),
        };
    }

    /// One buffer longer or shorter.
    fn length(&mut self, step: &mut Step) {
        let Some(buffer) = self.buffer(step) else {
            return;
        };
        let length = step.buffers[buffer].len();
        let another = match self.rng.below(5) {
            0 | 1 => length.saturating_sub(1),
            2 => 0,
            3 => length + self.rng.between(2, 300),
            _ => length + 1,
        };
        step.buffers[buffer].resize(another, 0);
    }

    /// One buffer longer, and another one shorter by the same.
    fn shifted_lengths(&mut self, step: &mut Step) {
        if let (Some(from), Some(to)) = (self.buffer(step), self.buffer(step)) {
            let byte = step.buffers[from].pop();
            step.buffers[to].extend(byte);
        }
    }

    fn buffer(&mut self, step: &Step) -> Option<usize> {
        let count = step.buffers.len();
        (count > 0).then(|| self.rng.below(count))
    }

    /// Puts other bytes into a buffer that is only read; `byte` gives one from its modulus.
    fn put(&mut self, step: &mut Step, byte: fn(&mut Rng, u8) -> u8) {
        if self.moduli.is_empty() {
            return;
        }
        let buffer = self.rng.below(self.moduli.len());
        let length = step.buffers[buffer].len().min(self.moduli[buffer].len());
        if length == 0 {
            return;
        }
        for _ in 0..self.rng.pick(&[1, 1, 2, 5]) {
            let at = match self.rng.below(6) {
                0 => 0,
                1 => length - 1,
                _ => self.rng.below(length),
            };
            step.buffers[buffer][at] = byte(self.rng, self.moduli[buffer][at]);
        }
    }

    /// Bits anywhere in any buffer, or now and then one byte all over a buffer.
    fn flip(&mut self, step: &mut Step) {
        for _ in 0..self.rng.between(1, 3) {
            let Some(buffer) = self.buffer(step) else {
                return;
            };
            let buffer = &mut step.buffers[buffer];
            if self.rng.once_in(6) {
                buffer.fill(self.rng.pick(&[0, 1, 255]));
            } else if !buffer.is_empty() {
                let at = self.rng.below(buffer.len());
                buffer[at] ^= 1 << self.rng.below(8);
            }
        }
    }

    /// One or two offsets that begin with any byte.
    fn first_of_offset(&mut self, step: &mut Step) {
        if !step.name.has_draw() {
            return self.put(step, high);
        }
        let moduli = self.circuit.moduli();
        // The key length may have been changed already.
        let k = self.moduli[0].len() / (moduli.len() + self.circuit.inputs);
        for _ in 0..self.rng.between(1, 2) {
            let at = self.rng.below(moduli.len());
            let any = self.rng.next_u64() as u8;
            let byte = self.rng.pick(&[0, 1, 2, moduli[at] - 1, moduli[at], any]);
            if let Some(first) = step.buffers[0].get_mut(at * k) {
                *first = byte;
            }
        }
    }

    /// Two bytes or more of the rows exchanged, where rows are read.
    fn exchange(&mut self, step: &mut Step) {
        if step.name != Name::Open || step.buffers[1].len() < 2 {
            return self.flip(step);
        }
        let rows = &mut step.buffers[1];
        let count = self.rng.between(1, rows.len() / 2);
        let (one, other) = rows.split_at_mut(count);
        let least = one.len().min(other.len());
        one[..least].swap_with_slice(&mut other[..least]);
    }

    /// The named total around its limit, and the others too.
    fn meter(&mut self, step: &mut Step) {
        let rows = total_rows(self.circuit);
        step.meter = match self.rng.below(3) {
            0 => with_space(step.account, rows, self.rng),
            _ => without_space(step.account, rows, self.rng),
        };
    }

    /// Another account, or a number that no account has.
    fn account(&mut self, step: &mut Step) {
        step.account = match self.rng.below(3) {
            0 => self.rng.below(ACCOUNTS) as u32,
            _ => wrong_account(step.account, self.rng),
        };
    }

    /// Another round number, where one is taken.
    fn round(&mut self, step: &mut Step) {
        if !step.name.has_round() {
            return self.put(step, high);
        }
        let others = others(step.round, self.rng);
        step.round = self.rng.pick(&others).1;
    }

    /// The file with a bit flipped, cut off, made longer, or, if it is still good, with selectors or with
    /// an output that names other seats.
    fn file(&mut self, step: &mut Step) {
        let length = step.file.len();
        match self.rng.below(7) {
            0 => step.file.truncate(self.rng.below(length + 1)),
            1 => step.file.push(0),
            2 if read(&step.file).is_ok() => {
                let with = with_selects(&step.file, self.rng);
                step.file = with.unwrap_or(step.file.clone());
            }
            3 => put_any_seats(&mut step.file, self.rng),
            _ if length > 0 => step.file[self.rng.below(length)] ^= 1 << self.rng.below(8),
            _ => {}
        }
    }
}

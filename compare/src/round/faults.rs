//! Calls with faults: good calls in which something is changed, once or several times, so that
//! every refusal is met, alone and beside others.
//!
//! Nothing here says which refusal a call must meet: that is what the two programs are asked.

use super::step::{Name, Step};
use compare::circuit::{Circuit, read};
use compare::contribution::{combined, length};
use compare::generate::meters::{with_space, without_space, wrong_account};
use compare::generate::named::put_any_seats;
use compare::generate::round_numbers::others;
use compare::meter::ACCOUNTS;
use compare::rng::Rng;

/// A good call with some faults.
pub fn spoiled(good: &Step, rng: &mut Rng) -> Step {
    let mut step = good.clone();
    let circuit = read(&good.file).expect("an accepted circuit");
    let mut spoiler = Spoiler {
        moduli: good.moduli(&circuit),
        n: good.n as usize,
        k: good.k as usize,
        circuit: &circuit,
        rng,
    };
    for _ in 0..spoiler.rng.pick(&[1, 1, 1, 2, 2, 3, 4]) {
        spoiler.spoil(&mut step);
    }
    step
}

/// What a call was before it was spoiled.
struct Spoiler<'s> {
    circuit: &'s Circuit<'s>,
    n: usize,
    k: usize,
    /// The moduli of the bytes of each buffer that is only read.
    moduli: Vec<Vec<u8>>,
    rng: &'s mut Rng,
}

impl Spoiler<'_> {
    /// Puts in one fault, or what might be one.
    fn spoil(&mut self, step: &mut Step) {
        match self.rng.below(24) {
            0 => step.n = self.number(step.n, 8),
            1 => step.k = self.number(step.k, 128),
            2 => step.party = self.party(step),
            3 | 4 => self.length(step),
            5 => self.shifted_lengths(step),
            6..=8 => self.raise(step),
            9..=11 => self.change(step),
            12 => self.flip(step),
            13 | 14 => self.zero_offset(step),
            15 => self.move_key(step),
            16 => self.tamper(step),
            17 | 18 => self.meter(step),
            19 => self.raise_both(step),
            20 => self.round(step),
            21 => self.account(step),
            22 => put_any_seats(&mut step.file, self.rng),
            _ => self.file(step),
        }
    }

    /// Another number: out of range, or with a low byte or half that is in range, or another good
    /// one.
    fn number(&mut self, good: u32, most: u32) -> u32 {
        let far = [256 + good, 65_536 + good, 1 << 31 | good, u32::MAX];
        let near = [0, 1, most, most + 1, good - 1, good + 1];
        if self.rng.once_in(3) {
            self.rng.pick(&far)
        } else {
            self.rng.pick(&near)
        }
    }

    fn party(&mut self, step: &Step) -> u32 {
        let Step { n, party, .. } = *step;
        let numbers = [
            n,
            n.wrapping_add(1),
            8,
            255,
            256 + party % 256,
            u32::MAX,
            0,
            1,
        ];
        self.rng.pick(&numbers)
    }

    /// One buffer longer or shorter.
    fn length(&mut self, step: &mut Step) {
        let buffer = self.buffer(step);
        let length = step.buffers[buffer].len();
        let another = match self.rng.below(5) {
            0 | 1 => length.saturating_sub(1),
            2 => 0,
            3 => length + self.rng.between(2, 300),
            _ => length + 1,
        };
        step.buffers[buffer].resize(another, 0);
    }

    /// One buffer longer, and another one shorter by the same.
    fn shifted_lengths(&mut self, step: &mut Step) {
        let (from, to) = (self.buffer(step), self.buffer(step));
        if let Some(byte) = step.buffers[from].pop() {
            step.buffers[to].push(byte);
        }
    }

    fn buffer(&mut self, step: &Step) -> usize {
        self.rng.below(step.buffers.len())
    }

    /// Puts other bytes into a buffer that is only read; `byte` gives one from its modulus.
    fn put(&mut self, step: &mut Step, buffer: usize, byte: fn(&mut Rng, u8) -> u8) {
        let length = step.buffers[buffer].len().min(self.moduli[buffer].len());
        if length == 0 {
            return;
        }
        let mut at = self.rng.below(length);
        for _ in 0..self.rng.pick(&[1, 1, 2, 5]) {
            at = match self.rng.below(7) {
                0 => 0,
                1 => length - 1,
                // Beside the one before, as two in one key or record are rare by chance.
                2 => at.saturating_sub(1),
                _ => self.rng.below(length),
            };
            step.buffers[buffer][at] = byte(self.rng, self.moduli[buffer][at]);
        }
    }

    /// Bytes not below their modulus.
    fn raise(&mut self, step: &mut Step) {
        let buffer = self.rng.below(self.moduli.len());
        self.put(step, buffer, high);
    }

    /// Such bytes in both keys and rows, which 18 judges one after the other.
    fn raise_both(&mut self, step: &mut Step) {
        if step.name != Name::Open {
            return self.raise(step);
        }
        self.put(step, 2, high);
        self.put(step, 3, high);
    }

    /// Other bytes below their modulus.
    fn change(&mut self, step: &mut Step) {
        let buffer = self.rng.below(self.moduli.len());
        self.put(step, buffer, |rng, p| rng.below(usize::from(p)) as u8);
    }

    /// Bits anywhere in any buffer, or now and then one byte all over a buffer.
    fn flip(&mut self, step: &mut Step) {
        if self.rng.once_in(4) {
            let buffer = self.buffer(step);
            let byte = self.rng.pick(&[0, 0, 1, 255]);
            return step.buffers[buffer].fill(byte);
        }
        for _ in 0..self.rng.between(1, 3) {
            let buffer = self.buffer(step);
            let length = step.buffers[buffer].len();
            if length > 0 {
                step.buffers[buffer][self.rng.below(length)] ^= 1 << self.rng.below(8);
            }
        }
    }

    /// One or two offsets zero, or zero but for their last byte.
    fn zero_offset(&mut self, step: &mut Step) {
        if !step.name.has_contribution() {
            return self.raise(step);
        }
        let each = length(self.circuit, self.k);
        let parties = if step.name == Name::Garble { self.n } else { 1 };
        for _ in 0..self.rng.between(1, 2) {
            let at = self.rng.below(self.circuit.moduli().len());
            let start = self.rng.below(parties) * each + at * self.k;
            if let Some(offset) = step.buffers[0].get_mut(start..start + self.k) {
                offset.fill(0);
                if self.rng.once_in(5) {
                    offset[self.k - 1] = 1;
                }
            }
        }
    }

    /// A party's key on an input moved to that of another external value of the opener's.
    fn move_key(&mut self, step: &mut Step) {
        if step.name != Name::Open {
            return self.change(step);
        }
        let input = self.rng.below(self.circuit.inputs);
        let p = self.circuit.wires[input].modulus;
        let moduli = self.circuit.moduli();
        let at = moduli.iter().position(|q| *q == p).expect("in use") * self.k;
        let party = match self.rng.below(2) {
            0 => step.party as usize % self.n,
            _ => self.rng.below(self.n),
        };
        let start = (input * self.n + party) * self.k;
        let [own, _, keys, ..] = &mut step.buffers[..] else {
            return;
        };
        let offset = own.get(at..at + self.k);
        let key = keys.get_mut(start..start + self.k);
        if let (Some(offset), Some(key)) = (offset, key) {
            let factor = self.rng.between(1, usize::from(p)) as i32;
            key.copy_from_slice(&combined(p, key, factor, offset));
        }
    }

    /// Two rows exchanged, mostly of one gate; or all rows of a gate drawn anew, so that the opened
    /// ones are among them.
    fn tamper(&mut self, step: &mut Step) {
        let size = self.n * self.k;
        let rows: Vec<usize> = self.rows_of_wires();
        let all = rows.iter().sum::<usize>();
        let fits = |buffer: &Vec<u8>| buffer.len() == all * size;
        if step.name != Name::Open || all == 0 || !fits(&step.buffers[3]) {
            return self.change(step);
        }
        if self.rng.once_in(3) {
            let one = self.rng.below(all);
            let other = (one + self.rng.between(1, 3)) % all;
            for at in 0..size {
                step.buffers[3].swap(one * size + at, other * size + at);
            }
            return;
        }
        let with_rows: Vec<usize> = (0..rows.len()).filter(|wire| rows[*wire] > 0).collect();
        let wire = self.rng.pick(&with_rows);
        let start = rows[..wire].iter().sum::<usize>() * size;
        for at in start..start + rows[wire] * size {
            step.buffers[3][at] = self.rng.below(usize::from(self.moduli[3][at])) as u8;
        }
    }

    fn rows_of_wires(&self) -> Vec<usize> {
        let wires = self.circuit.wires.iter();
        wires.map(|wire| wire.rows() as usize).collect()
    }

    /// The named total around its limit, and the others too.
    fn meter(&mut self, step: &mut Step) {
        if step.name != Name::Garble {
            return self.raise(step);
        }
        let rows = self.circuit.counts().rows;
        step.meter = match self.rng.below(3) {
            0 => with_space(step.account, rows, self.rng),
            _ => without_space(step.account, rows, self.rng),
        };
    }

    /// Another account, or a number that no account has.
    fn account(&mut self, step: &mut Step) {
        if step.name != Name::Garble {
            return self.change(step);
        }
        step.account = match self.rng.below(3) {
            0 => self.rng.below(ACCOUNTS) as u32,
            _ => wrong_account(step.account, self.rng),
        };
    }

    /// Another round number, where one is taken.
    fn round(&mut self, step: &mut Step) {
        if !step.name.has_round() {
            return self.change(step);
        }
        let others = others(step.round, self.rng);
        step.round = self.rng.pick(&others).1;
    }

    /// The file with a bit flipped, cut off or made longer.
    fn file(&mut self, step: &mut Step) {
        let length = step.file.len();
        match self.rng.below(6) {
            0 => step.file.truncate(self.rng.below(length + 1)),
            1 => step.file.push(0),
            _ if length > 0 => step.file[self.rng.below(length)] ^= 1 << self.rng.below(8),
            _ => {}
        }
    }
}

/// A byte not below this modulus.
pub fn high(rng: &mut Rng, p: u8) -> u8 {
    let any = rng.between(usize::from(p), 255) as u8;
    rng.pick(&[p, p, p + 1, 255, any])
}

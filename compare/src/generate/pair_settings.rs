//! Settings of rounds for two: a circuit without selectors, the round number, the account, the
//! garbler's draw and the inputs' values.

use super::circuits::{accepted, at_limit};
use super::meters::account_of;
use super::named::with_named;
use super::pair_sweep;
use super::round_numbers::round_number;
use super::selects::without_selects;
use super::settings::{below, cost, key_length, with_owners};
use crate::circuit::{Circuit, read};
use crate::contribution::modulo;
use crate::pair::draw::byte_moduli;
use crate::pair::total_rows;
use crate::rng::Rng;
use crate::word;

/// All that a round for two starts from.
#[derive(Clone, Debug)]
pub struct PairSetting {
    pub file: Vec<u8>,
    pub k: u32,
    /// The round number.
    pub round: u32,
    /// The account that garbling names.
    pub account: u32,
    pub draw: Vec<u8>,
    pub values: Vec<u8>,
}

impl PairSetting {
    /// Draws for an accepted circuit. The numbers are those of the key length, the round and the
    /// account.
    pub fn new(file: Vec<u8>, (k, round, account): (u32, u32, u32), rng: &mut Rng) -> Self {
        let circuit = read(&file).expect("an accepted circuit");
        let draw = draw(&circuit, k as usize, rng);
        let moduli: Vec<u8> = circuit.input_moduli().collect();
        let values = below(&moduli, rng);
        PairSetting {
            draw,
            values,
            k,
            round,
            account,
            file,
        }
    }

    /// The same with the values of the first inputs changed, so that their external values are 0 or
    /// not, as is asked for.
    fn with_externals(mut self, zeros: &[bool]) -> Self {
        let circuit = read(&self.file).expect("an accepted circuit");
        let (k, moduli) = (self.k as usize, circuit.moduli().len());
        for (input, zero) in zeros.iter().enumerate() {
            let p = circuit.wires[input].modulus;
            let mask = i32::from(self.draw[(moduli + input) * k]);
            let none = modulo(p, -mask);
            let value = &mut self.values[input];
            if *zero {
                *value = none;
            } else if *value == none {
                *value = modulo(p, i32::from(none) + 1);
            }
        }
        self
    }

    pub fn rows(&self) -> u32 {
        total_rows(&read(&self.file).expect("an accepted circuit"))
    }

    /// About how many permutations its garbling takes.
    pub fn cost(&self) -> u64 {
        pair_cost(self.rows(), self.k)
    }
}

/// There is one sender and one receiver.
fn pair_cost(rows: u32, k: u32) -> u64 {
    cost(rows, 1, k)
}

/// A draw with no fault.
pub fn draw(circuit: &Circuit, k: usize, rng: &mut Rng) -> Vec<u8> {
    let mut draw = below(&byte_moduli(circuit, k), rng);
    let offsets = k * circuit.moduli().len();
    for offset in draw[..offsets].chunks_mut(k) {
        // An offset that is 0 but for its first byte is likelier than by chance.
        if rng.once_in(4) {
            offset.fill(0);
        }
        offset[0] = 1;
    }
    draw
}

/// The circuit with its inputs' owners drawn anew among two parties, and the seats that its outputs name
/// among theirs or among all eight: whose they are makes no difference for two.
fn for_two(words: Vec<u32>, rng: &mut Rng) -> Vec<u32> {
    let seats = rng.pick(&[2, 8]);
    let words = with_owners(words, 2, rng);
    with_named(words, seats, rng)
}

/// The setting of one case of a run: first the sweep, then random ones.
pub fn setting(case: u64, rng: &mut Rng) -> PairSetting {
    let (round, account) = (round_number(case, rng), account_of(case));
    match pair_sweep::circuit(case, rng) {
        Some((words, k, zeros)) => {
            let file = word::file(&for_two(words, rng));
            PairSetting::new(file, (k, round, account), rng).with_externals(zeros)
        }
        None => random(round, account, rng),
    }
}

/// The most permutations that the garbling of a small setting takes.
const SMALL: u64 = 200;

/// A setting whose garbling takes few permutations, so that there can be many garblings of it. Mostly
/// it has rows. Which account pays is left to whoever garbles it.
pub fn small(rng: &mut Rng) -> PairSetting {
    loop {
        let k = rng.between(1, 3) as u32;
        let words = for_two(without_selects(&accepted(rng)), rng);
        let setting = PairSetting::new(word::file(&words), (k, rng.next_u32(), 0), rng);
        match setting.cost() {
            1..=SMALL => return setting,
            0 if rng.once_in(8) => return setting,
            _ => {}
        }
    }
}

/// A setting of any sort, whose garbling takes no more permutations than a limit that is mostly
/// small.
fn random(round: u32, account: u32, rng: &mut Rng) -> PairSetting {
    let limit = match rng.below(100) {
        0 => 30_000,
        1..=9 => 6_000,
        _ => 1_500,
    };
    loop {
        let words = match rng.below(60) {
            0 => at_limit(rng),
            _ => accepted(rng),
        };
        let file = word::file(&for_two(without_selects(&words), rng));
        let rows = total_rows(&read(&file).expect("an accepted circuit"));
        let (any, short) = (key_length(rng), rng.between(1, 4) as u32);
        let fitting = [any, short, 1]
            .into_iter()
            .find(|k| pair_cost(rows, *k) <= limit);
        if let Some(k) = fitting {
            return PairSetting::new(file, (k, round, account), rng);
        }
    }
}

#[cfg(test)]
mod tests {
    use super::*;
    use crate::pair::{input_keys, read as read_pair};

    #[test]
    fn settings_have_no_fault() {
        let mut rng = Rng::new(1);
        for case in 0..800 {
            let setting = setting(case, &mut rng);
            let PairSetting { file, k, .. } = &setting;
            assert_eq!(read_pair(file), Ok(setting.rows()));
            let mut keys = vec![0; *k as usize * setting.values.len()];
            input_keys(file, *k, &setting.draw, &setting.values, &mut keys).unwrap();
        }
    }

    #[test]
    fn external_values_are_zero_where_that_is_asked_for() {
        let mut rng = Rng::new(1);
        let mut words = vec![word::HEAD];
        words.extend([2, 5, 251, 3].map(|p| word::input(1, p)));
        words.extend([word::output(0), word::END]);
        for _ in 0..50 {
            let setting = PairSetting::new(word::file(&words), (2, 0, 0), &mut rng);
            let setting = setting.with_externals(&[true, false, true]);
            let mut keys = [0; 8];
            input_keys(&setting.file, 2, &setting.draw, &setting.values, &mut keys).unwrap();
            assert_eq!((keys[0], keys[4]), (0, 0));
            assert_ne!(keys[2], 0);
        }
    }
}

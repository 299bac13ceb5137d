//! Settings of whole rounds: a circuit, the parties, the round number, the account, the contributions
//! and the inputs' values.

use super::circuits::{accepted, at_limit};
use super::meters::account_of;
use super::named::with_named;
use super::round_numbers::round_number;
use super::round_sweep;
use crate::circuit::{Circuit, read};
use crate::contribution::byte_moduli;
use crate::rng::Rng;
use crate::word;

/// All that a round starts from.
#[derive(Clone, Debug)]
pub struct Setting {
    pub file: Vec<u8>,
    pub n: u32,
    pub k: u32,
    /// The round number.
    pub round: u32,
    /// The account that garbling names.
    pub account: u32,
    /// All parties' contributions, one after another.
    pub contributions: Vec<u8>,
    pub values: Vec<u8>,
}

impl Setting {
    /// Draws contributions and values for an accepted circuit. The numbers are those of the parties,
    /// the key length, the round and the account.
    pub fn new(file: Vec<u8>, numbers: (u32, u32, u32, u32), rng: &mut Rng) -> Self {
        let (n, k, round, account) = numbers;
        let circuit = read(&file).expect("an accepted circuit");
        let contributions = contributions(&circuit, n as usize, k as usize, rng);
        let moduli: Vec<u8> = circuit.input_moduli().collect();
        let values = below(&moduli, rng);
        Setting {
            contributions,
            values,
            n,
            k,
            round,
            account,
            file,
        }
    }

    pub fn rows(&self) -> u32 {
        let circuit = read(&self.file).expect("an accepted circuit");
        circuit.counts().rows
    }

    /// About how many permutations its garbling takes.
    pub fn cost(&self) -> u64 {
        cost(self.rows(), self.n, self.k)
    }
}

/// A sender's pad takes a permutation for each 136 bytes squeezed, and one more where its input
/// fills a block.
pub fn cost(rows: u32, n: u32, k: u32) -> u64 {
    let pad = k.div_ceil(17) + (17 + k) / 136;
    u64::from(rows) * u64::from(n * n * pad)
}

/// The setting of one case of a run: first the sweep, then random ones.
pub fn setting(case: u64, rng: &mut Rng) -> Setting {
    let (round, account) = (round_number(case, rng), account_of(case));
    match round_sweep::circuit(case, rng) {
        Some((words, n, k)) => {
            let file = word::file(&for_parties(words, n, rng));
            Setting::new(file, (n, k, round, account), rng)
        }
        None => random(round, account, rng),
    }
}

/// The most permutations that the garbling of a small setting takes.
const SMALL: u64 = 600;

/// A setting whose garbling takes few permutations, so that there can be many garblings of it. Mostly
/// it has rows. Which account pays is left to whoever garbles it.
pub fn small(rng: &mut Rng) -> Setting {
    loop {
        let (n, k) = (rng.between(2, 4) as u32, rng.between(1, 3) as u32);
        let words = for_parties(accepted(rng), n, rng);
        let numbers = (n, k, rng.next_u32(), 0);
        let setting = Setting::new(word::file(&words), numbers, rng);
        match setting.cost() {
            1..=SMALL => return setting,
            0 if rng.once_in(8) => return setting,
            _ => {}
        }
    }
}

/// A setting of any sort, whose garbling takes no more permutations than a limit that is mostly
/// small.
fn random(round: u32, account: u32, rng: &mut Rng) -> Setting {
    let limit = match rng.below(400) {
        0 => 600_000,
        1..=9 => 60_000,
        _ => 5_000,
    };
    let words = if rng.once_in(60) {
        at_limit(rng)
    } else {
        accepted(rng)
    };
    let rows = read(&word::file(&words)).map_or(0, |circuit| circuit.counts().rows);
    let (mut n, mut k) = (parties(rng), key_length(rng));
    if cost(rows, n, k) > limit {
        k = rng.between(1, 4) as u32;
    }
    if cost(rows, n, k) > limit {
        n = 2;
    }
    let file = word::file(&for_parties(words, n, rng));
    Setting::new(file, (n, k, round, account), rng)
}

fn parties(rng: &mut Rng) -> u32 {
    match rng.below(4) {
        0 => rng.between(2, 8) as u32,
        _ => rng.between(2, 4) as u32,
    }
}

/// Mostly short; where a pad's input or output fills a block is likelier than elsewhere.
pub(super) fn key_length(rng: &mut Rng) -> u32 {
    match rng.below(8) {
        0 => rng.pick(&[16, 17, 18, 34, 35, 118, 119, 120, 127, 128]),
        1 => rng.between(1, 128) as u32,
        _ => rng.between(1, 5) as u32,
    }
}

/// The circuit with its inputs' owners, and the seats that its outputs name, drawn anew among n parties.
fn for_parties(words: Vec<u32>, n: u32, rng: &mut Rng) -> Vec<u32> {
    let words = with_owners(words, n, rng);
    with_named(words, n, rng)
}

/// The circuit with its inputs' owners drawn anew among n parties.
pub(super) fn with_owners(mut words: Vec<u32>, n: u32, rng: &mut Rng) -> Vec<u32> {
    for word in words.iter_mut().filter(|word| **word >> 28 == 2) {
        *word = word::input(rng.below(n as usize) as u32, *word & 0xFF);
    }
    words
}

/// Contributions with no fault.
pub fn contributions(circuit: &Circuit, n: usize, k: usize, rng: &mut Rng) -> Vec<u8> {
    let moduli = byte_moduli(circuit, k);
    let offsets = k * circuit.moduli().len();
    let mut all = Vec::with_capacity(n * moduli.len());
    for _ in 0..n {
        let mut own = below(&moduli, rng);
        for (offset, p) in own[..offsets].chunks_mut(k).zip(circuit.moduli()) {
            // An offset with a single byte that is not zero is likelier than by chance.
            if rng.once_in(4) {
                offset.fill(0);
            }
            if offset.iter().all(|byte| *byte == 0) {
                offset[rng.below(k)] = rng.between(1, usize::from(p) - 1) as u8;
            }
        }
        all.extend(own);
    }
    all
}

/// A byte below each modulus; now and then all are the lowest or the highest.
pub fn below(moduli: &[u8], rng: &mut Rng) -> Vec<u8> {
    let manner = rng.below(20);
    let mut byte = |p: &u8| match manner {
        0 => 0,
        1 => p - 1,
        _ => rng.below(usize::from(*p)) as u8,
    };
    moduli.iter().map(&mut byte).collect()
}

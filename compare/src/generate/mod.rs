//! Generators of circuit files, lists of records and texts, good and damaged.

pub mod bundle_circuits;
pub mod bundle_numbers;
pub mod circuits;
pub mod damage;
mod drawing;
pub mod equal_masks;
pub mod meters;
pub mod named;
pub mod old_layout;
pub mod pair_example;
pub mod pair_settings;
pub mod pair_sweep;
pub mod record_sweep;
pub mod records;
pub mod round_numbers;
mod round_sweep;
pub mod selects;
pub mod settings;
pub mod sweep;
pub mod texts;

use crate::rng::Rng;
use crate::word;

/// The cases of a run: first the sweep, which is the same in every run, then random files.
pub struct Cases {
    seed: u64,
    sweep: Vec<Vec<u8>>,
}

impl Cases {
    pub fn new(seed: u64) -> Self {
        Cases {
            seed,
            sweep: sweep::files(),
        }
    }

    /// The file of one case, and a generator for what goes with it.
    pub fn file(&self, case: u64) -> (Vec<u8>, Rng) {
        let mut rng = Rng::of_case(self.seed, case);
        let swept = usize::try_from(case).ok().and_then(|at| self.sweep.get(at));
        let file = match swept {
            Some(file) => file.clone(),
            None => random_file(&mut rng),
        };
        (file, rng)
    }
}

/// A circuit file of any sort; four in ten are accepted.
pub fn random_file(rng: &mut Rng) -> Vec<u8> {
    match rng.below(100) {
        0..30 => word::file(&circuits::accepted(rng)),
        30..33 => word::file(&circuits::at_limit(rng)),
        33..50 => damage::word_by_word(rng),
        50..60 => damage::cut_or_extended(rng),
        60..75 => damage::faulty_words(rng),
        75..79 => damage::past_limit(rng),
        79..88 => damage::out_of_run(rng),
        88..92 => damage::random_words(rng),
        92..95 => damage::random_bytes(rng),
        _ => damage::tiny(rng),
    }
}

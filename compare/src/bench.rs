//! How long reading takes, the engine beside this program in the same run.

use crate::{engine, second};
use compare::circuit::read;
use compare::rng::Rng;
use compare::word::{self, END, HEAD};
use std::hint::black_box;
use std::process::ExitCode;
use std::time::{Duration, Instant};

/// Pairs of timings taken, of which the median counts.
const RUNS: usize = 31;

/// About how long one timing lasts; short ones are mostly noise.
const LASTING: Duration = Duration::from_millis(4);

pub fn bench_read() -> ExitCode {
    let large = line("read-large", &word::file(&large()));
    let usual = line("read-usual", &usual(300));
    if large && usual {
        ExitCode::SUCCESS
    } else {
        ExitCode::FAILURE
    }
}

/// The largest sort of file: all the wires there may be, nearly all of them projections of wires
/// of the largest modulus.
fn large() -> Vec<u32> {
    let mut words = vec![HEAD];
    words.extend((0..4).map(|owner| word::input(owner, 251)));
    for wire in 4..1024 {
        words.push(word::project(251, wire - 1));
        words.extend((0..251).map(|value| word::entry((value * 7 + wire) % 251)));
    }
    words.extend([word::output(1023), END]);
    words
}

/// A file of a usual sort: wires of all kinds, 24 or more; with 300 wires it has about 4,000 rows.
pub fn usual(wires: usize) -> Vec<u8> {
    let mut rng = Rng::new(1);
    let moduli = [2, 7, 23, 47];
    let mut words = vec![HEAD];
    // Wire w has modulus number w mod 4 throughout, so partners are at hand.
    words.extend((0..20).map(|wire| word::input(wire % 3, moduli[wire as usize % 4])));
    for wire in 20..wires {
        let modulus = moduli[wire % 4];
        let mut same = || (4 * rng.below(wire / 4) + wire % 4) as u32;
        let (a, b) = (same(), same());
        match wire / 4 % 7 {
            0..=2 => words.push(word::add(a, b)),
            3 => words.push(word::scale(1, a)),
            4 => words.push(word::multiply(a, b)),
            5 => words.extend([word::select(4), word::branches(a, b)]),
            _ => {
                let from = 4 * rng.below(wire / 4) + (wire + 1) % 4;
                words.push(word::project(modulus, from as u32));
                let images = (0..moduli[from % 4]).map(|value| word::entry(value % modulus));
                words.extend(images);
            }
        }
    }
    words.extend((wires - 20..wires).map(|wire| word::output(wire as u32)));
    words.push(END);
    word::file(&words)
}

/// Times both programs on a file and prints how they compare; false if they answer differently.
fn line(name: &str, file: &[u8]) -> bool {
    let ours = read(file).map(|circuit| second::in_order(circuit.counts()));
    let (answer, numbers) = engine::read(file);
    if answer.number != 0 || ours != Ok(numbers) {
        println!("{name} differs: second {ours:?}, engine {answer} {numbers:?}");
        return false;
    }
    let repeats = repeats(file);
    let mut second_times = Vec::new();
    let mut engine_times = Vec::new();
    // In turn, so that a slow spell of the machine falls on both.
    for _ in 0..RUNS {
        second_times.push(time(repeats, || {
            let counts = read(black_box(file)).map(|circuit| circuit.counts());
            black_box(counts.is_ok());
        }));
        engine_times.push(time(repeats, || {
            black_box(engine::read(black_box(file)));
        }));
    }
    let engine_time = median(engine_times);
    let ratio = engine_time / median(second_times);
    let ns = engine_time / (file.len() / 4) as f64;
    println!("{name} ratio={ratio:.2} ns={ns:.2}");
    true
}

/// How often to read this file in one timing.
fn repeats(file: &[u8]) -> u32 {
    let once = time(3, || {
        black_box(read(black_box(file)).is_ok());
    });
    ((LASTING.as_nanos() as f64 / once) as u32).max(1)
}

/// Nanoseconds for one of so many repetitions.
fn time(repeats: u32, mut work: impl FnMut()) -> f64 {
    let start = Instant::now();
    for _ in 0..repeats {
        work();
    }
    start.elapsed().as_nanos() as f64 / f64::from(repeats)
}

fn median(mut times: Vec<f64>) -> f64 {
    times.sort_by(f64::total_cmp);
    times[times.len() / 2]
}

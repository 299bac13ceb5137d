//! The differential run: generated files and calls, each made of both programs.

use crate::call::{After, Answer, Call};
use crate::{engine, hex, second};
use compare::circuit::{Circuit, read};
use compare::generate::Cases;
use compare::rng::Rng;
use std::collections::BTreeMap;
use std::process::ExitCode;

/// How many differences are printed; the others are counted.
const SHOWN: usize = 5;

/// A longer file is not printed, but can be made again.
const SHOWN_BYTES: usize = 1200;

/// A run of this many cases must meet every refusal that its calls can give.
const THOROUGH: u64 = 20_000;

/// The refusals that these calls can give.
const REFUSALS: [u32; 16] = [1, 2, 3, 4, 5, 6, 7, 8, 9, 10, 11, 12, 13, 28, 14, 15];

#[derive(Default)]
struct Tally {
    calls: u64,
    differences: u64,
    accepted_files: u64,
    /// Refused files by number from 1 to 10, refused calls on accepted files by number above.
    refused: BTreeMap<u32, u64>,
    /// Of each sort of difference, the one on the shortest file.
    shortest: BTreeMap<Sort, Difference>,
}

/// The call's name and both answers' numbers: differences alike in these mostly have one cause.
type Sort = (&'static str, u32, u32);

struct Difference {
    case: u64,
    file: Vec<u8>,
    call: Call,
    ours: After,
    engines: After,
}

pub fn run(seed: u64, count: u64) -> ExitCode {
    let mut tally = Tally::default();
    let cases = Cases::new(seed);
    for case in 0..count {
        let (file, mut rng) = cases.file(case);
        for call in calls_on(&file, &mut rng) {
            let ours = second::run(&file, &call);
            let engines = engine::run(&file, &call);
            tally.count(&call, ours.answer);
            if ours != engines {
                tally.keep(Difference {
                    case,
                    file: file.clone(),
                    call,
                    ours,
                    engines,
                });
            }
        }
    }
    for difference in tally.shortest.values().take(SHOWN) {
        difference.print(seed);
    }
    tally.report(count)
}

/// The file of one case of a run, as text.
pub fn case(seed: u64, case: u64) -> String {
    hex::text_of(&Cases::new(seed).file(case).0)
}

/// The calls to make on a file; a refused file must be refused by each of them.
fn calls_on(file: &[u8], rng: &mut Rng) -> Vec<Call> {
    let mut calls = vec![Call::Read];
    for _ in 0..5 {
        calls.push(inputs_of(rng));
    }
    match read(file) {
        Ok(circuit) => plain_calls(&circuit, rng, &mut calls),
        Err(_) => calls.push(Call::Plain {
            values: vec![0; rng.below(4)],
            outputs: rng.below(3),
        }),
    }
    calls
}

/// A count of parties and a party, mostly in range.
fn inputs_of(rng: &mut Rng) -> Call {
    // The numbers out of range have low bytes or halves in range.
    let n = match rng.below(5) {
        0 => rng.pick(&[0, 1, 9, 16, 258, 65_538, u32::MAX, 1 << 31 | 2]),
        1 => 8,
        _ => rng.between(2, 8) as u32,
    };
    let party = match rng.below(5) {
        0 => n,
        1 => rng.pick(&[8, 9, 255, 256, 65_536, u32::MAX, 1 << 31]),
        _ => rng.below(n.clamp(1, 8) as usize) as u32,
    };
    Call::InputsOf { n, party }
}

/// Plain evaluations of an accepted circuit: right ones, and ones with wrong lengths or values.
fn plain_calls(circuit: &Circuit, rng: &mut Rng, calls: &mut Vec<Call>) {
    let moduli: Vec<u8> = circuit.input_moduli().collect();
    let outputs = circuit.outputs.len();
    let last: Vec<u8> = moduli.iter().map(|p| p - 1).collect();
    calls.push(Call::Plain {
        values: last,
        outputs,
    });
    for _ in 0..3 {
        let values = good_values(&moduli, rng);
        calls.push(Call::Plain { values, outputs });
    }
    let mut values = good_values(&moduli, rng);
    raise_some(&mut values, &moduli, rng);
    let (wrong, wrong_outputs) = wrong_lengths(&values, outputs, rng);
    calls.push(Call::Plain { values, outputs });
    calls.push(Call::Plain {
        values: wrong,
        outputs: wrong_outputs,
    });
}

fn good_values(moduli: &[u8], rng: &mut Rng) -> Vec<u8> {
    moduli
        .iter()
        .map(|p| rng.below(usize::from(*p)) as u8)
        .collect()
}

/// Lifts one or several values to their modulus or above.
fn raise_some(values: &mut [u8], moduli: &[u8], rng: &mut Rng) {
    for _ in 0..rng.between(1, 3) {
        let at = rng.below(values.len());
        values[at] = rng.pick(&[moduli[at], moduli[at] + 1, 255]);
    }
}

/// A value too many or too few, or an output too many or too few, or both.
fn wrong_lengths(values: &[u8], outputs: usize, rng: &mut Rng) -> (Vec<u8>, usize) {
    let which = rng.below(3);
    let mut length = values.len();
    let mut outputs = outputs;
    if which != 0 {
        length = another_length(length, rng);
    }
    if which != 1 {
        outputs = another_length(outputs, rng);
    }
    let mut values = values.to_vec();
    values.resize(length, 0);
    (values, outputs)
}

fn another_length(length: usize, rng: &mut Rng) -> usize {
    match rng.below(4) {
        0 => length - 1,
        1 => 0,
        2 => length + rng.between(1, 300),
        _ => length + 1,
    }
}

impl Tally {
    fn count(&mut self, call: &Call, answer: Answer) {
        self.calls += 1;
        match (call, answer.number) {
            (Call::Read, 0) => self.accepted_files += 1,
            // Each refused file is counted once, at its reading.
            (Call::InputsOf { .. } | Call::Plain { .. }, 0..=10) => {}
            (_, number) => *self.refused.entry(number).or_default() += 1,
        }
    }

    fn keep(&mut self, difference: Difference) {
        self.differences += 1;
        let sort = difference.sort();
        let longer = |kept: &Difference| kept.file.len() > difference.file.len();
        if self.shortest.get(&sort).is_none_or(longer) {
            self.shortest.insert(sort, difference);
        }
    }

    fn report(&self, count: u64) -> ExitCode {
        println!("accepted: {} files", self.accepted_files);
        let mut missed = false;
        for number in REFUSALS {
            let times = self.refused.get(&number).copied().unwrap_or_default();
            let what = if number <= 10 { "files" } else { "calls" };
            println!("refused {number}: {times} {what}");
            missed |= times == 0;
        }
        println!("{} calls, {} differences", self.calls, self.differences);
        if missed && count >= THOROUGH {
            eprintln!("a refusal was never met");
        }
        if self.differences > 0 || (missed && count >= THOROUGH) {
            ExitCode::FAILURE
        } else {
            ExitCode::SUCCESS
        }
    }
}

impl Difference {
    fn sort(&self) -> Sort {
        let name = match self.call {
            Call::Read => "read",
            Call::InputsOf { .. } => "inputs_of",
            Call::Plain { .. } => "plain",
        };
        (name, self.ours.answer.number, self.engines.answer.number)
    }

    fn print(&self, seed: u64) {
        println!("difference in: {}", self.call);
        print_both(&self.ours, &self.engines);
        println!(
            "  file of {} bytes, from: compare case {seed} {}",
            self.file.len(),
            self.case
        );
        if self.file.len() <= SHOWN_BYTES {
            print!("{}", hex::text_of(&self.file));
        }
    }
}

fn print_both(ours: &After, engines: &After) {
    println!("  second: {ours}");
    println!("  engine: {engines}");
    if ours.loan.file != engines.loan.file {
        println!("  the engine wrote into the file or around it");
    }
    let contents = |after: &After| -> Vec<Vec<u8>> {
        let buffers = after.loan.buffers.iter();
        buffers.map(|buffer| buffer.content().to_vec()).collect()
    };
    if ours.loan.buffers != engines.loan.buffers && contents(ours) == contents(engines) {
        println!("  the engine wrote around a buffer");
    }
}

/// Shows what both programs answer on one file, for the calls named or else for a choice of them.
pub fn show(file: &[u8], named: Option<Call>) -> ExitCode {
    let calls = match named {
        Some(call) => vec![call],
        None => usual_calls(file),
    };
    let mut differences = 0;
    for call in &calls {
        let ours = second::run(file, call);
        let engines = engine::run(file, call);
        println!("{call}");
        print_both(&ours, &engines);
        differences += u32::from(ours != engines);
    }
    println!("{} calls, {differences} differences", calls.len());
    if differences > 0 {
        ExitCode::FAILURE
    } else {
        ExitCode::SUCCESS
    }
}

fn usual_calls(file: &[u8]) -> Vec<Call> {
    let mut calls = vec![Call::Read];
    if let Ok(circuit) = read(file) {
        calls.extend((0..8).map(|party| Call::InputsOf { n: 8, party }));
        let outputs = circuit.outputs.len();
        for distance in [0, 1] {
            let values = circuit.input_moduli().map(|p| distance * (p - 1)).collect();
            calls.push(Call::Plain { values, outputs });
        }
    }
    calls
}

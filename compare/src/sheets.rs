//! The price sheet compared: generated texts, each given to a built program and to this one.

use compare::generate::texts;
use compare::price_sheet::price_sheet;
use compare::rng::Rng;
use std::collections::BTreeMap;
use std::io::{self, Write};
use std::path::Path;
use std::process::{Command, ExitCode, Stdio};
use std::thread;

/// How many differences are printed; the others are counted.
const SHOWN: u64 = 5;

/// Longer texts are printed by their start alone.
const SHOWN_BYTES: usize = 600;

pub fn run(seed: u64, count: u64, program: &Path) -> io::Result<ExitCode> {
    let mut outcomes: BTreeMap<&str, u64> = ["sheet", "refused", "bad line", "too long"]
        .map(|name| (name, 0))
        .into();
    let mut differences = 0;
    for case in 0..count {
        let mut rng = Rng::of_case(seed, case);
        let text = texts::text(case, &mut rng);
        let expected = price_sheet(&text);
        // Small pieces for short texts alone, for the sake of the run's time.
        let piece = rng.pick(&[1, 5, 9, 64, 4096, 100_000]);
        let printed = output_of(program, &text, piece.max(text.len() / 500))?;
        *outcomes.entry(outcome(&expected)).or_default() += 1;
        if printed != expected.as_bytes() {
            differences += 1;
            if differences <= SHOWN {
                print_difference(seed, case, &text, &expected, &printed);
            }
        }
    }
    for (name, times) in &outcomes {
        println!("{name}: {times}");
    }
    println!("{count} texts, {differences} differences");
    Ok(if differences > 0 {
        ExitCode::FAILURE
    } else {
        ExitCode::SUCCESS
    })
}

/// The text of one case of a run.
pub fn text(seed: u64, case: u64) -> Vec<u8> {
    texts::text(case, &mut Rng::of_case(seed, case))
}

fn outcome(printed: &str) -> &'static str {
    let names = ["refused", "bad line", "too long"];
    let named = names.into_iter().find(|name| printed.starts_with(name));
    named.unwrap_or("sheet")
}

/// What the program prints when this text reaches it in pieces of this size, as a pipe brings it.
fn output_of(program: &Path, text: &[u8], piece: usize) -> io::Result<Vec<u8>> {
    let mut child = Command::new(program)
        .stdin(Stdio::piped())
        .stdout(Stdio::piped())
        .spawn()?;
    let mut input = child.stdin.take().expect("piped above");
    thread::scope(|scope| {
        scope.spawn(move || {
            for piece in text.chunks(piece) {
                // A program that has seen enough may stop reading; its output is compared all
                // the same.
                if input.write_all(piece).is_err() {
                    break;
                }
            }
        });
        let output = child.wait_with_output()?;
        // The status it ends with is left to the program, but it must end by itself.
        Ok(match output.status.code() {
            Some(_) => output.stdout,
            None => output.status.to_string().into_bytes(),
        })
    })
}

fn print_difference(seed: u64, case: u64, text: &[u8], expected: &str, printed: &[u8]) {
    let start = |bytes: &[u8]| {
        let shown = &bytes[..bytes.len().min(SHOWN_BYTES)];
        shown.escape_ascii().to_string()
    };
    let length = text.len();
    println!("difference in a text of {length} bytes, from: compare text {seed} {case}");
    println!("  text:    {}", start(text));
    println!("  second:  {}", start(expected.as_bytes()));
    println!("  program: {}", start(printed));
}

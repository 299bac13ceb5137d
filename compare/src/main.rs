//! Sets the engine beside the second program: the same calls on the same files, compared.

mod bench;
mod bundles;
mod call;
mod calls;
mod counts;
mod engine;
mod examples;
mod hex;
mod pairs;
mod round;
mod second;
mod sheets;
mod smallest;
mod writes;

use call::Call;
use compare::price_sheet::price_sheet;
use std::io::{self, Read, Write};
use std::path::Path;
use std::process::ExitCode;
use std::str::FromStr;
use std::{env, fs};

const USAGE: &str = "\
compare calls SEED COUNT             the engine's calls on generated files
compare case SEED CASE               the file of one case of such a run, as text
compare show FILE                    what both programs say of a file given as such a text
compare show FILE inputs_of N PARTY
compare show FILE plain VALUES OUTPUTS   (values in hexadecimal, - for none; number of outputs)
compare rounds SEED COUNT            whole rounds of calls, and such calls with faults
compare round SEED CASE              the calls of one case of such a run, printed
compare writes SEED COUNT            lists of records written as files, and files taken back
compare write SEED CASE              the calls of one case of such a run, printed
compare bundles SEED COUNT           integers split and joined, and circuits that reckon with them
compare bundle SEED CASE             the calls of one case of such a run, printed
compare pairs SEED COUNT             whole rounds for two, and such calls with faults
compare pair SEED CASE               the calls of one case of such a run, printed
compare examples                     the specification's examples on both programs
compare sheet                        the price sheet of standard input, by this program
compare sheets SEED COUNT PROGRAM    a price-sheet program on generated texts
compare text SEED CASE               the text of one case of such a run
compare bench-read                   how long reading takes
compare usual WIRES                  the file of a circuit of a usual sort, 24 to 1,024 wires";

fn main() -> ExitCode {
    let arguments: Vec<String> = env::args().skip(1).collect();
    let arguments: Vec<&str> = arguments.iter().map(String::as_str).collect();
    run(&arguments).unwrap_or_else(|trouble| {
        eprintln!("{trouble}");
        ExitCode::from(2)
    })
}

fn run(arguments: &[&str]) -> Result<ExitCode, String> {
    match arguments {
        ["calls", seed, count] => Ok(calls::run(number(seed)?, cases(count)?)),
        ["case", seed, case] => print(calls::case(number(seed)?, number(case)?).as_bytes()),
        ["show", file, call @ ..] => show(file, call),
        ["rounds", seed, count] => Ok(round::run(number(seed)?, cases(count)?)),
        ["round", seed, case] => Ok(round::one(number(seed)?, number(case)?)),
        ["writes", seed, count] => Ok(writes::run(number(seed)?, cases(count)?)),
        ["write", seed, case] => Ok(writes::one(number(seed)?, number(case)?)),
        ["bundles", seed, count] => Ok(bundles::run(number(seed)?, cases(count)?)),
        ["bundle", seed, case] => Ok(bundles::one(number(seed)?, number(case)?)),
        ["pairs", seed, count] => Ok(pairs::run(number(seed)?, cases(count)?)),
        ["pair", seed, case] => Ok(pairs::one(number(seed)?, number(case)?)),
        ["examples"] => Ok(examples::run()),
        ["sheet"] => sheet(),
        ["sheets", seed, count, program] => {
            let program = Path::new(program);
            sheets::run(number(seed)?, cases(count)?, program)
                .map_err(|trouble| format!("{}: {trouble}", program.display()))
        }
        ["text", seed, case] => print(&sheets::text(number(seed)?, number(case)?)),
        ["bench-read"] => Ok(bench::bench_read()),
        ["usual", wires] => usual(number(wires)?),
        _ => Err(USAGE.into()),
    }
}

fn number<N: FromStr>(digits: &str) -> Result<N, String> {
    digits
        .parse()
        .map_err(|_| format!("not a number in range: {digits}"))
}

/// The number of cases of a run: one of none would pass with nothing compared.
fn cases(digits: &str) -> Result<u64, String> {
    match number(digits)? {
        0 => Err(USAGE.into()),
        count => Ok(count),
    }
}

fn print(text: &[u8]) -> Result<ExitCode, String> {
    io::stdout()
        .write_all(text)
        .map_err(|trouble| trouble.to_string())?;
    Ok(ExitCode::SUCCESS)
}

fn usual(wires: usize) -> Result<ExitCode, String> {
    if !(24..=1024).contains(&wires) {
        return Err(USAGE.into());
    }
    print(&bench::usual(wires))
}

fn show(file: &str, call: &[&str]) -> Result<ExitCode, String> {
    let text = fs::read_to_string(file).map_err(|trouble| format!("{file}: {trouble}"))?;
    let call = match call {
        [] => None,
        ["read"] => Some(Call::Read),
        ["inputs_of", n, party] => Some(Call::InputsOf {
            n: number(n)?,
            party: number(party)?,
        }),
        ["plain", values, outputs] => Some(Call::Plain {
            values: hex::bytes_of(values)?,
            outputs: number(outputs)?,
        }),
        _ => return Err(USAGE.into()),
    };
    Ok(calls::show(&hex::file_of(&text)?, call))
}

fn sheet() -> Result<ExitCode, String> {
    let mut text = Vec::new();
    io::stdin()
        .read_to_end(&mut text)
        .map_err(|trouble| trouble.to_string())?;
    print(price_sheet(&text).as_bytes())
}

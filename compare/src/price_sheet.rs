//! The price sheet: a circuit's words as text, one a line, give a table of its rows.

use crate::circuit::{Circuit, read};
use std::fmt::Write;

pub const MOST_LINES: usize = 16_384;

/// A text that is not read as a circuit at all.
#[derive(Clone, Copy, Debug, PartialEq, Eq)]
enum NoWords {
    BadLine(usize),
    TooLong,
}

/// What the program prints for this text.
pub fn price_sheet(text: &[u8]) -> String {
    let file = match file_of(text) {
        Ok(file) => file,
        Err(NoWords::BadLine(line)) => return format!("bad line {line}\n"),
        Err(NoWords::TooLong) => return String::from("too long\n"),
    };
    match read(&file) {
        Ok(circuit) => table(&circuit),
        Err(refusal) => format!("refused {} at {}\n", refusal.number, refusal.place),
    }
}

/// The file that the text's words make.
fn file_of(text: &[u8]) -> Result<Vec<u8>, NoWords> {
    // What stands after the last newline is a line only if anything stands there.
    if text.is_empty() {
        return Ok(Vec::new());
    }
    let lines = text.strip_suffix(b"\n").unwrap_or(text).split(is_newline);
    let mut file = Vec::with_capacity(text.len() / 2);
    for (index, line) in lines.enumerate() {
        if index == MOST_LINES {
            return Err(NoWords::TooLong);
        }
        let word = word_of(line).ok_or(NoWords::BadLine(index + 1))?;
        file.extend(word.to_le_bytes());
    }
    Ok(file)
}

fn is_newline(byte: &u8) -> bool {
    *byte == b'\n'
}

/// The word that exactly eight hexadecimal digits of either case stand for.
fn word_of(line: &[u8]) -> Option<u32> {
    if line.len() != 8 {
        return None;
    }
    line.iter().try_fold(0, |word, digit| {
        Some(word << 4 | char::from(*digit).to_digit(16)?)
    })
}

fn table(circuit: &Circuit) -> String {
    let mut text = String::from("wire kind modulus rows\n");
    let mut total = 0;
    for (number, wire) in circuit.wires.iter().enumerate() {
        let (kind, modulus, rows) = (wire.kind(), wire.modulus, wire.rows());
        writeln!(text, "{number} {kind} {modulus} {rows}").expect("a string takes all");
        total += rows;
    }
    writeln!(text, "total {total}").expect("a string takes all");
    text
}

#[cfg(test)]
mod tests {
    use super::*;

    #[test]
    fn the_example() {
        let text = b"10000000\n20000005\n20010005\n50000001\nA0000002\nB0000000\n";
        let expected = "wire kind modulus rows\n0 2 5 0\n1 2 5 0\n2 5 5 10\ntotal 10\n";
        assert_eq!(price_sheet(text), expected);
        let lower = text.to_ascii_lowercase();
        assert_eq!(price_sheet(&lower), expected);
        assert_eq!(price_sheet(&text[..text.len() - 1]), expected);
    }

    /// Still of kind 5, at p rows where another product has 2p.
    #[test]
    fn squares() {
        let text = b"10000000\n20000005\n20010005\n50000000\n50000001\nA0000002\nB0000000\n";
        let expected = "0 2 5 0\n1 2 5 0\n2 5 5 5\n3 5 5 10\ntotal 15\n";
        assert_eq!(
            price_sheet(text),
            format!("wire kind modulus rows\n{expected}")
        );
    }

    #[test]
    fn a_refused_circuit() {
        assert_eq!(price_sheet(b""), "refused 1 at 0\n");
        let text = b"10000000\n20000005\n20010005\n50000C01\nA0000002\nB0000000\n";
        assert_eq!(price_sheet(text), "refused 5 at 3\n");
    }

    #[test]
    fn bad_lines() {
        let forms = [
            "",
            " 0000000",
            "1000000\r",
            "0x100000",
            "1000000",
            "100000000",
            "1000000G",
            "10000000\r",
            "10000000 ",
            "+1000000",
        ];
        for form in forms {
            let text = format!("10000000\n{form}\nB0000000\n");
            assert_eq!(price_sheet(text.as_bytes()), "bad line 2\n", "{form:?}");
        }
        assert_eq!(price_sheet(b"\n"), "bad line 1\n");
        assert_eq!(price_sheet(b"10000000\n\n"), "bad line 2\n");
    }

    #[test]
    fn the_first_of_bad_line_and_too_long() {
        let full = "10000000\n".repeat(MOST_LINES);
        assert_eq!(price_sheet(full.as_bytes()), "refused 3 at 1\n");
        let past = |rest: &str| price_sheet(format!("{full}{rest}").as_bytes());
        assert_eq!(past("\n"), "too long\n");
        assert_eq!(past("x"), "too long\n");
        assert_eq!(past("10000000\n"), "too long\n");
        let bad = format!("{}x\n10000000\n", &full[9..]);
        assert_eq!(price_sheet(bad.as_bytes()), "bad line 16384\n");
    }
}

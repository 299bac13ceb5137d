//! Generators of texts for the price sheet.

use super::circuits::{accepted, every_square};
use crate::price_sheet::MOST_LINES;
use crate::rng::Rng;
use crate::word::{self, END, HEAD};

/// The text of one case of a run: first squares and other products of every modulus, then every
/// byte in the place of a digit, then texts of any sort.
pub fn text(case: u64, rng: &mut Rng) -> Vec<u8> {
    match case {
        0 => lines(rng, |_| every_square()),
        1..=256 => with_byte((case - 1) as u8),
        _ => random_text(rng),
    }
}

/// A good circuit's lines with this byte in the place of a digit, of each of the eight in turn.
fn with_byte(byte: u8) -> Vec<u8> {
    let mut text = b"10000000\n20000005\nA0000000\nB0000000\n".to_vec();
    text[usize::from(byte) % 8] = byte;
    text
}

fn random_text(rng: &mut Rng) -> Vec<u8> {
    match rng.below(100) {
        0..35 => lines(rng, accepted),
        35..55 => lines(rng, any_words),
        55..88 => with_bad_line(rng),
        88..92 => stray_bytes(rng),
        92..94 => Vec::new(),
        _ => long(rng),
    }
}

/// Good lines of these words, with or without the last newline.
fn lines(rng: &mut Rng, words: fn(&mut Rng) -> Vec<u32>) -> Vec<u8> {
    let words = words(rng);
    let lines = lines_of(rng, &words);
    joined(rng, &lines)
}

/// The words of a file of any sort, whole words alone.
fn any_words(rng: &mut Rng) -> Vec<u32> {
    let file = super::random_file(rng);
    let (words, _) = file.as_chunks();
    words
        .iter()
        .take(MOST_LINES)
        .map(|word| u32::from_le_bytes(*word))
        .collect()
}

/// The words in upper, lower or mixed case.
fn lines_of(rng: &mut Rng, words: &[u32]) -> Vec<Vec<u8>> {
    let case = rng.below(3);
    let mut line = |word: &u32| {
        let mut line = format!("{word:08X}").into_bytes();
        for digit in &mut line {
            if case == 1 || (case == 2 && rng.once_in(2)) {
                digit.make_ascii_lowercase();
            }
        }
        line
    };
    words.iter().map(&mut line).collect()
}

fn joined(rng: &mut Rng, lines: &[Vec<u8>]) -> Vec<u8> {
    let mut text = lines.join(&b'\n');
    if !lines.is_empty() && !rng.once_in(3) {
        text.push(b'\n');
    }
    text
}

/// Lines of which one or two have another form.
fn with_bad_line(rng: &mut Rng) -> Vec<u8> {
    let words = if rng.once_in(3) {
        any_words(rng)
    } else {
        accepted(rng)
    };
    let mut lines = lines_of(rng, &words);
    if lines.is_empty() {
        lines.push(b"10000000".to_vec());
    }
    for _ in 0..rng.between(1, 2) {
        let at = rng.below(lines.len());
        if rng.once_in(4) {
            lines.insert(at, Vec::new());
        } else {
            spoil(rng, &mut lines[at]);
        }
    }
    joined(rng, &lines)
}

/// Gives a line another form; a line that is short already may stay as it is.
fn spoil(rng: &mut Rng, line: &mut Vec<u8>) {
    let at = rng.below(line.len() + 1);
    let stray = rng.pick(b" \tgGxX-+/:@`\0\x0B\x0C\xC3\xFF");
    match rng.below(9) {
        0 => line.push(b'\r'),
        1 => line.push(b' '),
        2 => line.insert(0, b' '),
        3 => line.splice(0..0, *b"0x").for_each(drop),
        // Eight characters with 0x among them are no better.
        4 if line.len() > 2 => line[..2].copy_from_slice(b"0x"),
        5 => drop(line.pop()),
        6 => line.insert(at, b'0'),
        7 => line.insert(at, stray),
        _ => {
            if let Some(digit) = line.get_mut(at) {
                *digit = stray;
            }
        }
    }
}

/// A few bytes of those that matter to lines.
fn stray_bytes(rng: &mut Rng) -> Vec<u8> {
    let count = rng.below(30);
    (0..count).map(|_| rng.pick(b"\n\r 0x1aFg")).collect()
}

/// A text at the limit of lines, or beyond it.
fn long(rng: &mut Rng) -> Vec<u8> {
    let words = longest_circuit();
    let mut lines = lines_of(rng, &words);
    let mut text;
    match rng.below(7) {
        // As many lines as there may be, with and without the last newline.
        0 => return joined(rng, &lines),
        // As many lines, and a circuit that ends before them.
        1 => {
            let at = rng.between(2, lines.len() - 1);
            lines[at] = b"B0000000".to_vec();
            return joined(rng, &lines);
        }
        // One line more, good, empty or another.
        2 => {
            lines.push(rng.pick(&["B0000000", "", "x", " "]).into());
            text = lines.join(&b'\n');
            text.push(b'\n');
        }
        // A byte more.
        3 => {
            text = lines.join(&b'\n');
            text.extend([b'\n', rng.pick(b"\n\r 0Bx\0\xFF")]);
        }
        // A bad line before too many lines, up to the very last before them.
        4 => {
            let last = lines.len() - 1;
            let at = rng.pick(&[0, last / 2, last]);
            spoil(rng, &mut lines[at]);
            lines.push(b"B0000000".to_vec());
            text = joined(rng, &lines);
        }
        // Far too many lines, and a bad one among those that are too many.
        5 => {
            lines.extend(lines.clone());
            let at = rng.between(MOST_LINES, lines.len() - 1);
            spoil(rng, &mut lines[at]);
            text = joined(rng, &lines);
        }
        // A single line, longer than a good text.
        _ => text = vec![b'0'; 200_000],
    }
    text
}

/// A good circuit of exactly as many words as a text may have lines: 65 tables of 251 entries,
/// each after its project word, and a head, an input, an output and an end.
fn longest_circuit() -> Vec<u32> {
    let mut words = vec![HEAD, word::input(0, 251)];
    for _ in 0..65 {
        words.push(word::project(2, 0));
        words.extend((0..251).map(|value| word::entry(value % 2)));
    }
    words.extend([word::output(65), END]);
    assert_eq!(words.len(), MOST_LINES);
    words
}

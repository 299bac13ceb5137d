//! Files that differ from a small good circuit in one place, one after another: every bit, every
//! kind, every value of a byte field, every length. Chance would leave some of them out.

use crate::word::{self, END, HEAD};

/// A circuit with a word of every kind.
const GOOD: [u32; 13] = [
    HEAD,
    word::input(0, 2),
    word::input(1, 3),
    word::add(1, 1),
    word::scale(2, 2),
    word::multiply(3, 1),
    word::project(5, 0),
    word::entry(4),
    word::entry(3),
    word::select(0),
    word::branches(1, 4),
    word::output(6),
    END,
];

/// A word of each kind that is good wherever it is due in that circuit.
const ONE_OF_EACH: [u32; 11] = [
    HEAD,
    word::input(0, 2),
    word::add(0, 0),
    word::scale(1, 0),
    word::multiply(0, 0),
    word::project(2, 0),
    word::entry(0),
    word::select(0),
    word::branches(0, 0),
    word::output(0),
    END,
];

/// All files of the sweep.
pub fn files() -> Vec<Vec<u8>> {
    let mut files = lengths();
    let words = [changed_words(), moved_words(), byte_fields()];
    files.extend(words.iter().flatten().map(|words| word::file(words)));
    files
}

/// The good circuit cut off at every byte, and with one to eight bytes after it.
fn lengths() -> Vec<Vec<u8>> {
    let mut longer = word::file(&GOOD);
    let whole = longer.len();
    longer.extend([0; 8]);
    (0..=whole + 8)
        .map(|length| longer[..length].to_vec())
        .collect()
}

/// Each word with each bit flipped, and with each kind in place of its own.
fn changed_words() -> Vec<Vec<u32>> {
    let mut files = Vec::new();
    for (at, word) in GOOD.iter().enumerate() {
        let flipped = (0..32).map(|bit| word ^ 1 << bit);
        let of_kind = (0..16).map(|kind| word & 0x0FFF_FFFF | kind << 28);
        for changed in flipped.chain(of_kind) {
            let mut words = GOOD.to_vec();
            words[at] = changed;
            files.push(words);
        }
    }
    files
}

/// Each word left out, and a word of each kind put in or put in place of another at each index;
/// after the good words too.
fn moved_words() -> Vec<Vec<u32>> {
    let mut files = Vec::new();
    for at in 0..=GOOD.len() {
        let (before, after) = GOOD.split_at(at);
        let rest = after.get(1..).unwrap_or_default();
        files.push([before, rest].concat());
        for word in ONE_OF_EACH {
            files.push([before, &[word], after].concat());
            files.push([before, &[word], rest].concat());
        }
    }
    // A head that comes again, with each bit that it may not have.
    files.extend((0..28).map(|bit| vec![HEAD, HEAD | 1 << bit]));
    files
}

/// Every value of every field of eight bits.
fn byte_fields() -> Vec<Vec<u32>> {
    let mut files = Vec::new();
    for byte in 0..=255 {
        files.push(vec![HEAD, word::input(0, byte), word::output(0), END]);
        files.push(vec![HEAD, word::input(byte, 3), word::output(0), END]);
        for modulus in [2, 3, 127, 251] {
            files.push(scaled(byte, modulus));
            files.push(projected(modulus, [byte, 0]));
            files.push(projected(modulus, [1, byte]));
        }
        files.push(projected(byte, [0, 1]));
        files.push(multiplied(byte));
        files.push(named([byte, 0, 0]));
        files.push(named([0, 0, byte]));
        files.push(named([3, byte, 128]));
    }
    files
}

/// Three outputs that name these seats. Each has another number than its wire.
fn named(seats: [u32; 3]) -> Vec<u32> {
    let inputs = [2, 3, 5, 7].map(|p| word::input(p % 2, p));
    let outputs = [(seats[0], 3), (seats[1], 2), (seats[2], 0)];
    let mut words = vec![HEAD];
    words.extend(inputs);
    words.extend(outputs.map(|(named, wire)| word::named_output(named, wire)));
    words.push(END);
    words
}

/// A square, another product, the square of that square, and the product of a wire with its square.
fn multiplied(modulus: u32) -> Vec<u32> {
    let [one, other] = [0, 1].map(|owner| word::input(owner, modulus));
    let mut words = vec![HEAD, one, other];
    words.extend([(0, 0), (0, 1), (2, 2), (0, 2)].map(|(a, b)| word::multiply(a, b)));
    words.extend([word::output(5), END]);
    words
}

fn scaled(constant: u32, modulus: u32) -> Vec<u32> {
    let scale = word::scale(constant, 0);
    vec![HEAD, word::input(0, modulus), scale, word::output(1), END]
}

fn projected(modulus: u32, images: [u32; 2]) -> Vec<u32> {
    let project = word::project(modulus, 0);
    let mut words = vec![HEAD, word::input(0, 2), project];
    words.extend(images.map(word::entry));
    words.extend([word::output(1), END]);
    words
}

#[cfg(test)]
mod tests {
    use super::*;
    use crate::circuit::read;
    use crate::generate::circuits::all_moduli;

    #[test]
    fn the_circuit_of_the_sweep_is_good() {
        assert!(read(&word::file(&GOOD)).is_ok());
    }

    /// Two squares of p rows and two products of 2p; two inputs and two squares with a key each in a
    /// record, and two products with two. At 2 the squares have neither.
    #[test]
    fn squares_and_products_of_every_modulus() {
        let files = files();
        for p in all_moduli() {
            let file = word::file(&multiplied(p));
            assert!(files.contains(&file));
            let counts = read(&file).expect("accepted").counts();
            let due = if p == 2 { (8, 6) } else { (6 * p, 8) };
            assert_eq!((counts.rows, counts.records), due);
        }
    }
}

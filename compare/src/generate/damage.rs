//! Generators of damaged circuit files.
//!
//! They do not say which refusal a file must meet: that is what the two programs are asked. They
//! only see to it that every check is met often, alone and beside others in the same word.

use super::circuits::{Builder, accepted, at_limit, full_of_outputs, full_of_wires};
use crate::circuit::MOST_OUTPUTS;
use crate::rng::Rng;
use crate::word::{self, END, HEAD, Kind};

/// A good circuit with some words changed, moved, doubled or left out.
pub fn word_by_word(rng: &mut Rng) -> Vec<u8> {
    let mut words = accepted(rng);
    for _ in 0..rng.pick(&[1, 1, 1, 2, 4]) {
        let at = rng.below(words.len());
        match rng.below(6) {
            0 | 1 => flip_bits(rng, &mut words[at]),
            2 => {
                let other = rng.below(words.len());
                words.swap(at, other);
            }
            3 if words.len() > 1 => {
                words.remove(at);
            }
            4 => words.insert(at, words[at]),
            _ => words[at] = rng.next_u32(),
        }
    }
    word::file(&words)
}

fn flip_bits(rng: &mut Rng, word: &mut u32) {
    for _ in 0..rng.pick(&[1, 1, 2, 5]) {
        *word ^= 1 << rng.below(32);
    }
}

/// A circuit, good or not, cut off at any byte, or with bytes after its end.
pub fn cut_or_extended(rng: &mut Rng) -> Vec<u8> {
    let mut file = match rng.below(10) {
        0 => word_by_word(rng),
        1 => word::file(&without_outputs(rng)),
        2 => word::file(&at_limit(rng)),
        _ => word::file(&accepted(rng)),
    };
    match rng.below(4) {
        0 => file.truncate(rng.below(file.len() + 1)),
        1 => file.truncate(file.len() - rng.between(1, 12).min(file.len())),
        2 => {
            let count = rng.between(1, 8);
            let more = rng.bytes(count);
            file.extend(more);
        }
        _ => {
            // What follows the end may be a good word, a second end, or zeros.
            let word = rng.pick(&[END, HEAD, 0, word::output(0)]);
            let bytes = word.to_le_bytes().repeat(2);
            file.extend(&bytes[..rng.between(1, 8)]);
        }
    }
    file
}

/// A good circuit without its outputs; whether words follow its end is left to chance.
fn without_outputs(rng: &mut Rng) -> Vec<u32> {
    let mut words = accepted(rng);
    let gates_alone = rng.once_in(2);
    words.retain(|word| word >> 28 != 10 && (gates_alone || word >> 28 == 1 || word >> 28 == 11));
    words
}

/// A good circuit in which one or two words have wrong fields, often several in one word, so that
/// the order of the checks shows.
pub fn faulty_words(rng: &mut Rng) -> Vec<u8> {
    let mut words = accepted(rng);
    for _ in 0..rng.pick(&[1, 1, 2]) {
        let at = place_in(rng, &words);
        let kind = if rng.once_in(4) {
            rng.below(16) as u32
        } else {
            words[at] >> 28
        };
        let moduli = moduli_before(&words, at);
        let faulty = Faulty {
            odds: rng.pick(&[2, 2, 3, 6]),
            rng,
            moduli: &moduli,
        }
        .word(kind);
        if rng.once_in(4) {
            words.insert(at, faulty);
        } else {
            words[at] = faulty;
        }
    }
    word::file(&words)
}

/// An index of a word after the head; table entries, though many, are not the likeliest.
fn place_in(rng: &mut Rng, words: &[u32]) -> usize {
    for _ in 0..4 {
        let at = rng.between(1, words.len() - 1);
        if words[at] >> 28 != 7 || rng.once_in(8) {
            return at;
        }
    }
    rng.between(1, words.len() - 1)
}

/// The moduli of the wires that good words make before this index (a select's stands in its
/// branches, so that word is looked up too).
fn moduli_before(words: &[u32], at: usize) -> Vec<u32> {
    let mut moduli: Vec<u32> = Vec::new();
    for (index, word) in words.iter().enumerate().take(at) {
        let of = |wire: u32| moduli.get(wire as usize & 0x3FF).copied().unwrap_or(2);
        let modulus = match Kind::numbered(word >> 28) {
            Some(Kind::Input) => word & 0xFF,
            Some(Kind::Project) => word >> 10 & 0xFF,
            Some(Kind::Add | Kind::Multiply | Kind::Scale) => of(*word),
            // A branches word belongs to a wire still being made.
            Some(Kind::Select) if index + 1 < at => of(words[index + 1]),
            _ => continue,
        };
        moduli.push(modulus);
    }
    moduli
}

/// A circuit with all the wires or outputs there may be, and one more word that asks for another.
pub fn past_limit(rng: &mut Rng) -> Vec<u8> {
    if rng.once_in(3) {
        return word::file(&past_outputs(rng));
    }
    let words = full_of_wires(rng, &mut |builder| {
        let kind = builder.rng().pick(&[2, 3, 3, 4, 4, 5, 5, 6, 6, 8, 8, 10]);
        push_faulty(builder, kind);
        builder.outputs(1);
    });
    word::file(&words)
}

fn past_outputs(rng: &mut Rng) -> Vec<u32> {
    if rng.once_in(8) {
        return full_of_wires(rng, &mut |builder| {
            builder.outputs(MOST_OUTPUTS);
            push_faulty(builder, 10);
        });
    }
    let mut words = full_of_outputs(rng);
    let end = words.len() - 1;
    let moduli = moduli_before(&words, end);
    let mut faulty = Faulty {
        odds: 4,
        rng,
        moduli: &moduli,
    };
    words.insert(end, faulty.word(10));
    words
}

fn push_faulty(builder: &mut Builder, kind: u32) {
    let moduli = builder.moduli().to_vec();
    let odds = builder.rng().pick(&[3, 6, 12]);
    let word = Faulty {
        odds,
        rng: builder.rng(),
        moduli: &moduli,
    }
    .word(kind);
    builder.push(word);
}

/// A circuit with a good word in a place where its kind is not due.
pub fn out_of_run(rng: &mut Rng) -> Vec<u8> {
    let mut words = accepted(rng);
    let at = rng.between(1, words.len() - 1);
    let moduli = moduli_before(&words, at);
    let kind = rng.between(1, 11) as u32;
    let word = Faulty {
        odds: 40,
        rng,
        moduli: &moduli,
    }
    .word(kind);
    match rng.below(3) {
        0 => words[at] = word,
        1 => words.insert(at, word),
        // From here on the file is another one: nothing, or a single word, is left of this one.
        _ => {
            words.truncate(at);
            words.push(word);
            if rng.once_in(2) {
                words.push(END);
            }
        }
    }
    word::file(&words)
}

/// A head and random words, each of a known kind, most with fields that could be right.
pub fn random_words(rng: &mut Rng) -> Vec<u8> {
    let mut words = vec![HEAD];
    for _ in 0..rng.between(1, 12) {
        let moduli = moduli_before(&words, words.len());
        let kind = match rng.below(4) {
            0 => rng.between(1, 11) as u32,
            1 => rng.pick(&[2, 2, 10]),
            _ => rng.pick(&[3, 4, 5, 6, 8, 10, 11]),
        };
        let word = Faulty {
            odds: 10,
            rng,
            moduli: &moduli,
        }
        .word(kind);
        words.push(word);
    }
    word::file(&words)
}

/// Random bytes, half of the time after a head.
pub fn random_bytes(rng: &mut Rng) -> Vec<u8> {
    let mut file = if rng.once_in(2) {
        word::file(&[HEAD])
    } else {
        Vec::new()
    };
    let count = rng.below(100);
    let more = rng.bytes(count);
    file.extend(more);
    file
}

/// A file of 0 to 12 bytes.
pub fn tiny(rng: &mut Rng) -> Vec<u8> {
    let length = rng.between(0, 12);
    let first = match rng.below(4) {
        0 => rng.pick(&[0, END, HEAD | 1, HEAD | 1 << 27, 2 << 28, u32::MAX]),
        _ => HEAD,
    };
    let next = [
        END,
        HEAD,
        word::input(0, 2),
        word::output(0),
        word::add(0, 0),
        0,
    ];
    let words = [first, rng.pick(&next), rng.pick(&next)];
    let mut file = word::file(&words);
    file.truncate(length);
    if rng.once_in(4) {
        let length = file.len();
        file = rng.bytes(length);
    }
    file
}

/// A writer of words whose fields are wrong once in so many times each.
struct Faulty<'a> {
    rng: &'a mut Rng,
    odds: usize,
    moduli: &'a [u32],
}

impl Faulty<'_> {
    fn word(&mut self, kind: u32) -> u32 {
        let fields = match kind {
            2 => self.owner() << 16 | self.modulus(),
            3 | 5 | 9 => self.two_wires(),
            4 => self.constant_and_wire(),
            6 => self.modulus() << 10 | self.wire(),
            7 => self.image(),
            8 => self.bit_wire(),
            10 => self.rng.pick(&[0, 0, 1, 2, 3, 4, 128, 255]) << 10 | self.wire(),
            _ => 0,
        };
        kind << 28 | fields | self.stray_bit(kind)
    }

    fn fault(&mut self) -> bool {
        self.rng.once_in(self.odds)
    }

    /// A bit that must be zero in this kind of word.
    fn stray_bit(&mut self, kind: u32) -> u32 {
        let fields = Kind::numbered(kind).map_or(0, Kind::fields);
        // Less often than other faults, as it hides all of them.
        if !(self.fault() && self.rng.once_in(3)) {
            return 0;
        }
        let bit = 1 << self.rng.below(28);
        bit & !fields
    }

    fn owner(&mut self) -> u32 {
        if self.fault() {
            self.rng.pick(&[8, 9, 16, 128, 255])
        } else {
            self.rng.below(8) as u32
        }
    }

    fn modulus(&mut self) -> u32 {
        if self.fault() {
            let composite = [0, 1, 4, 9, 15, 49, 121, 169, 221, 247, 250, 252, 253, 255];
            self.rng.pick(&composite)
        } else {
            self.rng.pick(&[2, 2, 3, 5, 7, 251])
        }
    }

    /// A wire made already, or one that is not made: the next, or any higher one.
    fn wire(&mut self) -> u32 {
        let made = self.moduli.len();
        if made == 0 || self.fault() {
            let high = self.rng.between(made, made.max(1023));
            self.rng.pick(&[made, made, made + 1, high]).min(1023) as u32
        } else {
            self.rng.below(made) as u32
        }
    }

    /// A wire made already that has this modulus, if there is one; or a faulty choice.
    fn wire_of(&mut self, modulus: u32) -> u32 {
        let wire = self.wire();
        if self.moduli.is_empty() || self.fault() {
            return wire;
        }
        let start = self.rng.below(self.moduli.len());
        let same = (start..self.moduli.len())
            .chain(0..start)
            .find(|wire| self.moduli[*wire] == modulus);
        same.map_or(wire, |wire| wire as u32)
    }

    fn two_wires(&mut self) -> u32 {
        let a = self.wire();
        let b = match self.moduli.get(a as usize) {
            Some(modulus) => self.wire_of(*modulus),
            None => self.wire(),
        };
        if self.rng.once_in(2) {
            a << 10 | b
        } else {
            b << 10 | a
        }
    }

    fn constant_and_wire(&mut self) -> u32 {
        let wire = self.wire();
        let modulus = self.moduli.get(wire as usize).map_or(2, |p| *p & 0xFF);
        let constant = if self.fault() {
            self.rng.pick(&[0, modulus, (modulus + 1) & 0xFF, 255])
        } else {
            modulus.saturating_sub(1)
        };
        constant << 10 | wire
    }

    /// An image that is right for most tables, or for few, or for none.
    fn image(&mut self) -> u32 {
        if self.fault() {
            self.rng.pick(&[2, 3, 5, 251, 255])
        } else {
            self.rng.below(2) as u32
        }
    }

    fn bit_wire(&mut self) -> u32 {
        self.wire_of(2)
    }
}

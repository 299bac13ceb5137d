//! The seats that outputs name.

use crate::circuit::{Circuit, Output, read};
use crate::rng::Rng;
use crate::word;

/// The seats that an output names, of the first so many: often none, else one, all, all but one or any
/// of them.
pub fn named(seats: u32, rng: &mut Rng) -> u8 {
    let all = (1_u32 << seats) - 1;
    let one = 1 << rng.below(seats as usize);
    let any = rng.next_u32() & all;
    rng.pick(&[0, 0, 0, one, one, all, all - one, all - one, any]) as u8
}

/// Seats of which this one is the lowest that n parties leave empty; who takes part may be named beside,
/// and whoever sits higher.
pub fn named_from(n: u32, seat: u32, rng: &mut Rng) -> u8 {
    let any = rng.next_u32();
    let taking_part = any & ((1 << n) - 1);
    let higher = any & !((2 << seat) - 1);
    let beside = rng.pick(&[0, 0, taking_part, taking_part | higher]);
    (1 << seat | beside) as u8
}

/// Seats of which one or more are left empty by n parties, who are fewer than eight.
pub fn named_beyond(n: u32, rng: &mut Rng) -> u8 {
    let seat = rng.between(n as usize, 7) as u32;
    named_from(n, seat, rng)
}

/// The circuit with the seats that its outputs name drawn anew among the first so many: now and then
/// none, or the same in every output.
pub(super) fn with_named(mut words: Vec<u32>, seats: u32, rng: &mut Rng) -> Vec<u32> {
    let manner = rng.below(8);
    let same = named(seats, rng);
    for word in words.iter_mut().filter(|word| **word >> 28 == 10) {
        let named = match manner {
            0 => 0,
            1 | 2 => same,
            _ => named(seats, rng),
        };
        *word = word::named_output(named.into(), *word & 0x3FF);
    }
    words
}

/// Other seats for an output of an accepted file; the words of the outputs stand right before the end.
pub fn put_named(file: &mut [u8], circuit: &Circuit, output: usize, named: u8) {
    let Output { wire, .. } = circuit.outputs[output];
    let word = word::file(&[word::named_output(named.into(), wire.into())]);
    let from_end = 1 + circuit.outputs.len() - output;
    let place = file.len() / 4 - from_end;
    file[4 * place..][..4].copy_from_slice(&word);
}

/// Other seats for an output, whoever they are, if the file is an accepted one.
pub fn put_any_seats(file: &mut [u8], rng: &mut Rng) {
    let before = file.to_vec();
    if let Ok(circuit) = read(&before) {
        let output = rng.below(circuit.outputs.len());
        put_named(file, &circuit, output, named(8, rng));
    }
}

#[cfg(test)]
mod tests {
    use super::*;
    use crate::generate::circuits::accepted;

    #[test]
    fn seats_are_drawn_among_those_asked_for() {
        let mut rng = Rng::new(1);
        for seats in 1..=8 {
            let mut seen = [0; 256];
            for _ in 0..20_000 {
                seen[usize::from(named(seats, &mut rng))] += 1;
            }
            let met: Vec<usize> = (0..256).filter(|named| seen[*named] > 0).collect();
            assert_eq!(met, (0..1 << seats).collect::<Vec<usize>>());
            assert!(seen[0] > 5000 && seen[(1 << seats) - 1] > 1000);
        }
    }

    #[test]
    fn seats_beyond_are_beyond() {
        let mut rng = Rng::new(1);
        for n in 2..8 {
            for _ in 0..500 {
                assert!(named_beyond(n, &mut rng) >> n != 0);
                let seat = rng.between(n as usize, 7) as u32;
                let named = named_from(n, seat, &mut rng);
                assert_eq!((named >> n).trailing_zeros(), seat - n);
            }
        }
    }

    /// Nothing of the circuit changes but whom the outputs name.
    #[test]
    fn seats_are_put_where_they_are_asked_for() {
        let mut rng = Rng::new(1);
        for _ in 0..500 {
            let words = with_named(accepted(&mut rng), 3, &mut rng);
            let mut file = word::file(&words);
            let before = file.clone();
            let circuit = read(&before).expect("accepted");
            assert!(circuit.outputs.iter().all(|output| output.named < 8));
            let at = rng.below(circuit.outputs.len());
            put_named(&mut file, &circuit, at, 0xA5);
            let mut due = circuit.outputs.clone();
            due[at].named = 0xA5;
            let after = read(&file).expect("accepted");
            assert_eq!(after.counts(), circuit.counts());
            assert_eq!(after.outputs, due);
        }
    }
}

//! Round numbers: one for each round of a run, and others to open it with.

use crate::rng::Rng;

/// The number of one case's round. The ends of the range take turns with numbers drawn, so that no
/// sort is left to chance.
pub fn round_number(case: u64, rng: &mut Rng) -> u32 {
    match case % 5 {
        0 => 0,
        1 => 1,
        2 => u32::MAX,
        3 => with_different_bytes(rng),
        _ if rng.once_in(4) => with_one_byte(rng),
        _ => rng.next_u32(),
    }
}

/// Whether its four bytes are all different, so that it is another number in any other order of
/// them.
pub fn has_different_bytes(round: u32) -> bool {
    let bytes = round.to_le_bytes();
    (1..4).all(|at| !bytes[..at].contains(&bytes[at]))
}

fn with_different_bytes(rng: &mut Rng) -> u32 {
    loop {
        let round = rng.next_u32();
        if has_different_bytes(round) {
            return round;
        }
    }
}

/// A number that is 0 but for one byte, which may be any of the four.
fn with_one_byte(rng: &mut Rng) -> u32 {
    let byte = rng.between(1, 255) as u32;
    byte << (8 * rng.below(4))
}

/// The ways in which another number differs from a round's own.
pub const WAYS: [&str; 5] = [
    "by one",
    "in one byte",
    "in the order of its bytes",
    "in the high byte",
    "as 0",
];

/// Other numbers than a round's own, each with its way. A way that gives the same number is left
/// out; the first way never does.
pub fn others(round: u32, rng: &mut Rng) -> Vec<(&'static str, u32)> {
    let high = (rng.between(1, 255) as u32) << 24;
    let numbers = [
        rng.pick(&[round.wrapping_add(1), round.wrapping_sub(1)]),
        round ^ with_one_byte(rng),
        reordered(round, rng),
        round ^ high,
        0,
    ];
    let differs = |(_, other): &(&str, u32)| *other != round;
    WAYS.into_iter().zip(numbers).filter(differs).collect()
}

/// The number with all bytes reversed, or with two of them exchanged.
fn reordered(round: u32, rng: &mut Rng) -> u32 {
    if rng.once_in(3) {
        return round.swap_bytes();
    }
    let mut bytes = round.to_le_bytes();
    let one = rng.below(4);
    bytes.swap(one, (one + rng.between(1, 3)) % 4);
    u32::from_le_bytes(bytes)
}

#[cfg(test)]
mod tests {
    use super::*;

    #[test]
    fn five_cases_have_every_sort_of_number() {
        let mut rng = Rng::new(1);
        for first in 0..100 {
            let cases = first..first + 5;
            let rounds: Vec<u32> = cases.map(|case| round_number(case, &mut rng)).collect();
            assert!([0, 1, u32::MAX].iter().all(|due| rounds.contains(due)));
            assert!(rounds.iter().any(|round| has_different_bytes(*round)));
        }
    }

    #[test]
    fn bytes_are_all_different_or_not() {
        assert!(has_different_bytes(0x0403_0201));
        assert!(has_different_bytes(0x0001_02FF));
        for round in [0, 1, u32::MAX, 0x0403_0204, 0x0103_0301, 0x0402_0201] {
            assert!(!has_different_bytes(round), "{round:#010x}");
        }
    }

    #[test]
    fn others_differ_each_in_its_way() {
        let mut rng = Rng::new(1);
        for round in [0, 1, u32::MAX, 0x0403_0201, 0x0100_0000] {
            for _ in 0..50 {
                let others = others(round, &mut rng);
                assert_eq!(others[0].0, WAYS[0]);
                for (way, other) in others {
                    assert_ne!(other, round);
                    assert!(
                        is_so(way, round, other),
                        "{way} {round:#010x} {other:#010x}"
                    );
                }
            }
        }
    }

    fn is_so(way: &str, round: u32, other: u32) -> bool {
        let (mut one, mut two) = (round.to_le_bytes(), other.to_le_bytes());
        let differing = (0..4).filter(|at| one[*at] != two[*at]).count();
        match way {
            "by one" => other.abs_diff(round) == 1 || other.abs_diff(round) == u32::MAX,
            "in one byte" => differing == 1,
            "in the high byte" => other << 8 == round << 8,
            "as 0" => other == 0,
            _ => {
                one.sort();
                two.sort();
                one == two
            }
        }
    }

    #[test]
    fn a_number_of_different_bytes_has_an_other_of_each_way() {
        let mut rng = Rng::new(1);
        for _ in 0..50 {
            let found = others(0x0403_0201, &mut rng);
            assert_eq!(found.len(), WAYS.len());
        }
    }
}

//! Settings for two that are worked through by hand, and by compare/pair_row.py.

use super::pair_settings::PairSetting;
use crate::word::{self, END, HEAD, entry, input, multiply, output, project};

pub const ROUND: u32 = 0x0403_0211;

/// The circuit of compare/pair_row.py: inputs a and b modulo 3, the projection of a by 0, 1, 2 → 2, 4,
/// 1 modulo 5, and the product of a and b.
pub fn by_hand(values: [u8; 2]) -> PairSetting {
    let table = [2, 4, 1].map(entry);
    let words = [
        &[HEAD, input(0, 3), input(1, 3), project(5, 0)],
        &table[..],
        &[multiply(0, 1), output(2), output(3), END],
    ];
    PairSetting {
        file: word::file(&words.concat()),
        k: 2,
        round: ROUND,
        account: 3,
        // Offsets modulo 3 and 5; zero keys of a and b, whose masks are 2 and 1.
        draw: vec![1, 2, 1, 3, 2, 1, 1, 0],
        values: values.to_vec(),
    }
}

/// The pads under the keys of a or b for the external values 0, 1 and 2, as compare/pair_row.py prints
/// them: a's keys are (0, 0), (1, 2) and (2, 1), b's are (0, 1), (1, 0) and (2, 2).
pub const PADS: [u8; 18] = [
    3, 2, 2, 2, 1, 3, // the projection, modulo 5
    2, 1, 1, 2, 1, 0, // the product's first half, under a's keys
    1, 1, 2, 0, 1, 2, // its second, under b's
];

/// Of the projection, whose zero key is k. External value 0 is the value 1, which goes to 4:
/// k + 4·(1, 3) + (3, 2) = k + (2, 4) is all zero, so k = (3, 1).
///   1: value 2 goes to 1: (3, 1) + (1, 3) + (2, 2) = (1, 1)
///   2: value 0 goes to 2: (3, 1) + (2, 1) + (1, 3) = (1, 0)
/// Of the first half, which takes v to −v as b's mask is 1. External value 0 is the value 1, which
/// goes to 2: k′ + 2·(1, 2) + (2, 1) = k′ + (1, 2), so k′ = (2, 1).
///   1: value 2 goes to 1: (2, 1) + (1, 2) + (1, 2) = (1, 2)
///   2: value 0 goes to 0: (2, 1) + (1, 0) = (0, 1)
/// Of the second half, where k″ + (1, 1) is all zero, so k″ = (2, 2).
///   1: (2, 2) − (2, 1) + (2, 0) = (2, 1)
///   2: (2, 2) − 2·(2, 1) + (1, 2) = (2, 2)
pub const ROWS: [u8; 12] = [
    1, 1, 1, 0, // the projection
    1, 2, 0, 1, // the first half
    2, 1, 2, 2, // the second
];

/// The projection's zero key begins with 3; the product's is k′ + k″ = (1, 0).
pub const MASKS: [u8; 2] = [3, 1];

/// The other circuit of compare/pair_row.py: a bit times itself, which is a product here.
pub fn bit_by_hand(bit: u8) -> PairSetting {
    PairSetting {
        file: word::file(&[HEAD, input(1, 2), multiply(0, 0), output(1), END]),
        k: 3,
        round: ROUND,
        account: 6,
        // The offset; the bit's zero key, whose mask is 1.
        draw: vec![1, 1, 0, 1, 0, 0],
        values: vec![bit],
    }
}

/// The pads under the bit's keys for the external values 0 and 1, (0, 1, 0) and (1, 0, 0).
pub const BIT_PADS: [u8; 12] = [
    0, 1, 1, 1, 0, 0, // the first half
    1, 1, 1, 1, 1, 0, // the second
];

/// Of the first half, which takes v to −v. External value 0 is the value 1, which goes to 1:
/// k′ + (1, 1, 0) + (0, 1, 1) is all zero, so k′ = (1, 0, 1).
///   1: value 0 goes to 0: (1, 0, 1) + (1, 0, 0) = (0, 0, 1)
/// Of the second half, where k″ + (1, 1, 1) is all zero, so k″ = (1, 1, 1).
///   1: (1, 1, 1) − (1, 0, 0) + (1, 1, 0) = (1, 0, 1)
pub const BIT_ROWS: [u8; 6] = [0, 0, 1, 1, 0, 1];

/// The square's zero key is k′ + k″ = (0, 1, 0), which is not the bit's.
pub const BIT_MASKS: [u8; 1] = [0];

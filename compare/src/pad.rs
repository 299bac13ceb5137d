//! The pads that hide an entry of a row.

use crate::shake::Sponge;

/// What the pads of one row have in common.
#[derive(Clone, Copy)]
pub struct Row {
    /// The round number, which garbling and opening are given.
    pub round: u32,
    /// The modulus of the keys that encrypt.
    pub modulus: u8,
    /// The wire that the row is for.
    pub wire: usize,
    pub component: u8,
    /// The modulus of what is encrypted.
    pub receiving: u8,
}

impl Row {
    /// The sum of all senders' pads for one receiver, one number below the receiving modulus for
    /// each component of a key. `keys` holds each sender's key.
    pub fn pads<K: AsRef<[u8]>>(self, receiver: usize, keys: &[K]) -> Vec<i32> {
        let q = u64::from(self.receiving);
        let mut sums = vec![0; keys[0].as_ref().len()];
        for key in keys {
            for (sum, number) in sums.iter_mut().zip(self.numbers(receiver, key.as_ref())) {
                *sum = (*sum + number % q) % q;
            }
        }
        sums.into_iter().map(|sum| sum as i32).collect()
    }

    /// The numbers squeezed for one sender's key, eight bytes each.
    fn numbers(self, receiver: usize, key: &[u8]) -> impl Iterator<Item = u64> {
        let mut sponge = Sponge::new();
        sponge.absorb(b"ROWPAD");
        sponge.absorb(&self.round.to_le_bytes());
        sponge.absorb(&[self.modulus]);
        sponge.absorb(&(self.wire as u32).to_le_bytes());
        sponge.absorb(&[self.component]);
        sponge.absorb(&[receiver as u8]);
        sponge.absorb(key);
        // Room for the longest key.
        let mut bytes = [0; 8 * 128];
        let taken = 8 * key.len();
        sponge.squeeze(&mut bytes[..taken]);
        let numbers = bytes.as_chunks().0.to_vec();
        numbers.into_iter().take(key.len()).map(u64::from_le_bytes)
    }
}

#[cfg(test)]
mod tests {
    use super::*;

    /// SHAKE256 of a whole message, as numbers of eight bytes.
    fn squeezed(message: &[u8], count: usize) -> Vec<u64> {
        let mut sponge = Sponge::new();
        sponge.absorb(message);
        let mut bytes = vec![0; 8 * count];
        sponge.squeeze(&mut bytes);
        let numbers = bytes.as_chunks().0.iter();
        numbers.map(|number| u64::from_le_bytes(*number)).collect()
    }

    /// Numbers squeezed by another implementation, python's hashlib.
    const LAID_OUT: [u64; 3] = [
        0xF44A_BDC9_E1B3_D08A,
        0x4174_179A_B040_345B,
        0x6814_CF90_B5A9_9268,
    ];

    #[test]
    fn the_input_laid_out_in_full() {
        let row = Row {
            round: 0x0403_0201,
            modulus: 5,
            wire: 0x0203,
            component: 2,
            receiving: 7,
        };
        let numbers: Vec<u64> = row.numbers(6, &[4, 0, 3]).collect();
        let input = [
            b'R', b'O', b'W', b'P', b'A', b'D', // the fixed bytes
            1, 2, 3, 4, // round
            5, // the sender key's modulus
            3, 2, 0, 0, // wire
            2, // component
            6, // receiver
            4, 0, 3, // the sender's key
        ];
        assert_eq!(numbers, squeezed(&input, 3));
        assert_eq!(numbers, LAID_OUT);
    }

    #[test]
    fn pads_of_two_rounds_differ() {
        let rounds = [
            0,
            1,
            1 << 8,
            1 << 16,
            1 << 24,
            1 << 31,
            u32::MAX,
            0x0403_0201,
            0x0102_0304,
            0x0304_0102,
        ];
        let numbers = |round: u32| -> Vec<u64> {
            let row = Row {
                round,
                modulus: 251,
                wire: 1,
                component: 0,
                receiving: 251,
            };
            row.numbers(0, &[0, 1]).collect()
        };
        for (at, round) in rounds.iter().enumerate() {
            for before in &rounds[..at] {
                assert_ne!(
                    numbers(*before),
                    numbers(*round),
                    "{before:#010x} {round:#010x}"
                );
            }
        }
    }

    /// The sums of two senders' pads modulo 251, by python's hashlib.
    const SUMS: [(u32, [i32; 3]); 5] = [
        (0, [113, 71, 189]),
        (1, [42, 245, 190]),
        (u32::MAX, [192, 130, 88]),
        (0x0403_0201, [63, 13, 77]),
        (0x0102_0304, [48, 127, 107]),
    ];

    #[test]
    fn two_senders_pads_are_summed() {
        for (round, sums) in SUMS {
            let row = Row {
                round,
                modulus: 3,
                wire: 300,
                component: 0,
                receiving: 251,
            };
            assert_eq!(row.pads(1, &[[1, 0, 2], [2, 2, 1]]), sums);
        }
    }

    /// Of the pads below, by key length: the first number, the last of the first block squeezed, the
    /// first of the second, and the last of all, by python's hashlib.
    const AT_THE_EDGE: [(usize, [u64; 4]); 4] = [
        (
            118,
            [
                0x4D52_9E5F_F1C5_5FFF,
                0xC346_904C_33A0_1DC8,
                0xDB17_1753_DA6D_0CC8,
                0xD9A4_BC96_502E_4E4E,
            ],
        ),
        (
            119,
            [
                0x233B_767A_860B_A745,
                0x8B24_F155_8F4C_EE81,
                0x5E2E_C56A_9A24_E6D0,
                0xED0A_972F_19AB_9D1D,
            ],
        ),
        (
            120,
            [
                0x35E4_3D56_71F3_3229,
                0x221F_3C8F_D974_F2A5,
                0xE047_6AE2_E1FF_C0F0,
                0x75EC_6303_E68B_4216,
            ],
        ),
        (
            128,
            [
                0x88E1_4A4C_71EC_7E2F,
                0x8192_B72F_87BF_A38E,
                0xE2B3_813F_CA59_D172,
                0x0CB1_4ECA_C3A8_9DA5,
            ],
        ),
    ];

    /// 17 bytes stand before the key, so a key of 119 bytes fills a block of 136.
    #[test]
    fn inputs_around_a_whole_block() {
        let row = Row {
            round: 0x0403_0201,
            modulus: 251,
            wire: 1023,
            component: 1,
            receiving: 251,
        };
        for (k, [first, end, next, last]) in AT_THE_EDGE {
            let key: Vec<u8> = (0..k).map(|at| ((3 * at + 1) % 251) as u8).collect();
            let numbers: Vec<u64> = row.numbers(7, &key).collect();
            let found = [numbers[0], numbers[16], numbers[17], numbers[k - 1]];
            assert_eq!(found, [first, end, next, last], "key length {k}");
        }
    }
}

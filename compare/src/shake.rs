//! SHAKE256 of FIPS 202, on whole bytes.

use crate::keccak::{State, permute};

/// Bytes taken in or given out for each permutation: 1600 bits less a capacity of 512.
const RATE: usize = 136;

/// A sponge that takes in bytes.
pub struct Sponge {
    state: State,
    /// How much of the current block is taken in.
    at: usize,
}

impl Sponge {
    #[expect(clippy::new_without_default)]
    pub fn new() -> Self {
        Sponge {
            state: [0; 25],
            at: 0,
        }
    }

    pub fn absorb(&mut self, bytes: &[u8]) {
        for byte in bytes {
            self.add(self.at, *byte);
            self.at += 1;
            if self.at == RATE {
                permute(&mut self.state);
                self.at = 0;
            }
        }
    }

    /// Ends the message with the bits 1111 of SHAKE and the padding 10*1, and gives out bytes.
    pub fn squeeze(mut self, out: &mut [u8]) {
        self.add(self.at, 0x1F);
        self.add(RATE - 1, 0x80);
        for block in out.chunks_mut(RATE) {
            permute(&mut self.state);
            for (at, byte) in block.iter_mut().enumerate() {
                *byte = self.state[at / 8].to_le_bytes()[at % 8];
            }
        }
    }

    fn add(&mut self, at: usize, byte: u8) {
        self.state[at / 8] ^= u64::from(byte) << (8 * (at % 8));
    }
}

#[cfg(test)]
mod tests {
    use super::*;

    /// The first bytes of SHAKE256 of a message, in hexadecimal.
    fn begins(message: &[u8]) -> String {
        let mut sponge = Sponge::new();
        sponge.absorb(message);
        let mut out = [0; 32];
        sponge.squeeze(&mut out);
        out.iter().map(|byte| format!("{byte:02x}")).collect()
    }

    #[test]
    fn the_published_examples() {
        assert_eq!(
            begins(b""),
            "46b9dd2b0ba88d13233b3feb743eeb243fcd52ea62b81b82b50c27646ed5762f"
        );
        assert_eq!(
            begins(&[0xA3; 200]),
            "cd8a920ed141aa0407a22d59288652e9d9f1a7ee0c1e7c1ca699424da84a904d"
        );
    }

    #[test]
    fn the_published_examples_in_later_blocks() {
        let mut out = [0; 512];
        Sponge::new().squeeze(&mut out);
        let last: String = out[496..].iter().map(|b| format!("{b:02x}")).collect();
        assert_eq!(last, LAST_OF_EMPTY);
    }

    #[test]
    fn fields_one_after_another_are_one_message() {
        let message: Vec<u8> = (0..=255).cycle().take(300).collect();
        let (mut whole, mut parts) = (Sponge::new(), Sponge::new());
        whole.absorb(&message);
        for part in message.chunks(7) {
            parts.absorb(part);
        }
        let (mut one, mut other) = ([0; 200], [0; 200]);
        whole.squeeze(&mut one);
        parts.squeeze(&mut other);
        assert_eq!(one, other);
    }

    /// The last 16 of the 512 bytes published for the empty message.
    const LAST_OF_EMPTY: &str = "1fd166c796b9cc258a064a8f57e27f2a";
}

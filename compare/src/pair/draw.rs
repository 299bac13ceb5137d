//! What the garbler draws: an offset for each modulus that some wire has, moduli ascending, then the
//! zero key of each input, in wire order.

use crate::circuit::{Circuit, Refusal};
use crate::session::refuse_place;

/// How many bytes a draw has at this key length.
pub fn length(circuit: &Circuit, k: usize) -> usize {
    k * (circuit.moduli().len() + circuit.inputs)
}

/// The modulus of each byte of a draw.
pub fn byte_moduli(circuit: &Circuit, k: usize) -> Vec<u8> {
    let keys = circuit.moduli().into_iter().chain(circuit.input_moduli());
    keys.flat_map(|p| vec![p; k]).collect()
}

/// A draw taken apart.
pub struct Draw<'d> {
    k: usize,
    moduli: Vec<u8>,
    offsets: &'d [u8],
    zero_keys: &'d [u8],
}

impl<'d> Draw<'d> {
    /// Takes bytes of the right length apart. 16: each byte is below its modulus; the place is the
    /// lowest that is not. 27, where 17 stood: component 0 of each offset is 1; the place is the
    /// lowest modulus for which it is not.
    pub fn checked(circuit: &Circuit, k: usize, bytes: &'d [u8]) -> Result<Self, Refusal> {
        let due = byte_moduli(circuit, k);
        let mut pairs = bytes.iter().zip(due);
        refuse_place(pairs.position(|(byte, p)| *byte >= p), 16)?;
        let moduli = circuit.moduli();
        let (offsets, zero_keys) = bytes.split_at(k * moduli.len());
        let draw = Draw {
            k,
            moduli,
            offsets,
            zero_keys,
        };
        let wrong = |p: &&u8| draw.offset(**p)[0] != 1;
        let lowest = draw.moduli.iter().find(wrong);
        refuse_place(lowest.map(|p| usize::from(*p)), 27)?;
        Ok(draw)
    }

    pub fn offset(&self, modulus: u8) -> &'d [u8] {
        let at = self.moduli.iter().position(|p| *p == modulus);
        &self.offsets[at.expect("a modulus in use") * self.k..][..self.k]
    }

    pub fn zero_key(&self, input: usize) -> &'d [u8] {
        &self.zero_keys[input * self.k..][..self.k]
    }
}

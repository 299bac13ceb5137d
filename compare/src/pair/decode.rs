//! Decoding for two: every output is for both sides, whomever it names.

use crate::circuit::{Refusal, read};
use crate::decode::figures;

/// (e − m) mod p of each output, from external values of all wires and the outputs' masks. The file
/// alone is read first: owners and selectors are not looked at.
pub fn decode(
    file: &[u8],
    externals: &[u8],
    masks: &[u8],
    outputs: &mut [u8],
) -> Result<(), Refusal> {
    figures(&read(file)?, |_| true, externals, masks, outputs)
}

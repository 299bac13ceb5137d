//! The opener's keys on the inputs.

use super::checks::circuit_for_two;
use super::draw::{self, Draw};
use crate::circuit::Refusal;
use crate::contribution::combined;
use crate::session::{check_below, check_lengths};

/// The key of each input for its value, k + v·D.
pub fn input_keys(
    file: &[u8],
    k: u32,
    draw: &[u8],
    values: &[u8],
    keys: &mut [u8],
) -> Result<(), Refusal> {
    let circuit = circuit_for_two(file, k)?;
    let k = k as usize;
    check_lengths(&[
        (draw.len(), draw::length(&circuit, k)),
        (values.len(), circuit.inputs),
        (keys.len(), k * circuit.inputs),
    ])?;
    check_below(values, circuit.input_moduli())?;
    let draw = Draw::checked(&circuit, k, draw)?;
    for (input, key) in keys.chunks_mut(k).enumerate() {
        let p = circuit.wires[input].modulus;
        let value = i32::from(values[input]);
        key.copy_from_slice(&combined(p, draw.zero_key(input), value, draw.offset(p)));
    }
    Ok(())
}

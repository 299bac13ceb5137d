//! Decoding: the outputs' values, from their external values and masks.

use crate::circuit::{Circuit, Output, Refusal, read};
use crate::contribution::modulo;
use crate::garble::UNREAD;
use crate::session::{check_both_below, check_lengths, check_parties, check_party, check_seats};

/// The figures of one of n parties: those of the outputs that it may read, from external values of all
/// wires and the party's sheet of masks.
pub fn decode(
    file: &[u8],
    (n, party): (u32, u32),
    externals: &[u8],
    masks: &[u8],
    outputs: &mut [u8],
) -> Result<(), Refusal> {
    let circuit = read(file)?;
    check_parties(n)?;
    check_party(n, party)?;
    check_seats(&circuit, n)?;
    let may_read = |output: &Output| output.is_for(party);
    figures(&circuit, may_read, externals, masks, outputs)
}

/// (e − m) mod p of each output that may be read. The masks of the others are passed over.
pub fn figures(
    circuit: &Circuit,
    may_read: impl Fn(&Output) -> bool,
    externals: &[u8],
    masks: &[u8],
    outputs: &mut [u8],
) -> Result<(), Refusal> {
    let count = circuit.outputs.len();
    check_lengths(&[
        (externals.len(), circuit.wires.len()),
        (masks.len(), count),
        (outputs.len(), count),
    ])?;
    let wire_moduli: Vec<u8> = circuit.wires.iter().map(|wire| wire.modulus).collect();
    let output_moduli: Vec<u8> = circuit.output_moduli().collect();
    // 0 is below every modulus, so that a mask that is passed over never meets 15.
    let judged = |(output, mask): (&Output, &u8)| if may_read(output) { *mask } else { 0 };
    let masks: Vec<u8> = circuit.outputs.iter().zip(masks).map(judged).collect();
    check_both_below((externals, &wire_moduli), (&masks, &output_moduli))?;
    for (at, output) in circuit.outputs.iter().enumerate() {
        let external = i32::from(externals[usize::from(output.wire)]);
        outputs[at] = match may_read(output) {
            true => modulo(output_moduli[at], external - i32::from(masks[at])),
            false => UNREAD,
        };
    }
    Ok(())
}

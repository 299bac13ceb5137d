//! What a party does for the inputs: external values of its own, and its keys on all of them.

use crate::circuit::{Refusal, read};
use crate::contribution::{Contribution, combined, length, modulo};
use crate::session::{
    check_below, check_both_below, check_contributions, check_key_length, check_lengths,
    check_offsets, check_parties, check_party, check_seats,
};

/// External values of a party's own inputs, (v + m) mod p.
pub fn externals(
    file: &[u8],
    (n, party): (u32, u32),
    values: &[u8],
    masks: &[u8],
    externals: &mut [u8],
) -> Result<(), Refusal> {
    let circuit = read(file)?;
    check_parties(n)?;
    check_party(n, party)?;
    check_seats(&circuit, n)?;
    let own = |(owner, _): &(u8, u8)| u32::from(*owner) == party;
    let inputs = circuit.owners().zip(circuit.input_moduli());
    let moduli: Vec<u8> = inputs.filter(own).map(|(_, p)| p).collect();
    check_lengths(&[
        (values.len(), moduli.len()),
        (masks.len(), moduli.len()),
        (externals.len(), moduli.len()),
    ])?;
    check_both_below((values, &moduli), (masks, &moduli))?;
    for (at, external) in externals.iter_mut().enumerate() {
        let sum = i32::from(values[at]) + i32::from(masks[at]);
        *external = modulo(moduli[at], sum);
    }
    Ok(())
}

/// A party's keys on all inputs, k + e·D each.
pub fn input_keys(
    file: &[u8],
    (n, k, party): (u32, u32, u32),
    contribution: &[u8],
    externals: &[u8],
    keys: &mut [u8],
) -> Result<(), Refusal> {
    let circuit = read(file)?;
    check_parties(n)?;
    check_key_length(k)?;
    check_party(n, party)?;
    check_seats(&circuit, n)?;
    let k = k as usize;
    check_lengths(&[
        (contribution.len(), length(&circuit, k)),
        (externals.len(), circuit.inputs),
        (keys.len(), circuit.inputs * k),
    ])?;
    check_below(externals, circuit.input_moduli())?;
    check_contributions(&circuit, k, contribution)?;
    let own = Contribution::new(&circuit, k, contribution);
    check_offsets(std::slice::from_ref(&own))?;
    for (wire, key) in keys.chunks_mut(k).enumerate() {
        let p = circuit.wires[wire].modulus;
        let zero = own.record(wire).keys[0];
        let external = i32::from(externals[wire]);
        key.copy_from_slice(&combined(p, zero, external, own.offset(p)));
    }
    Ok(())
}

//! What the calls for two check beside what those for n parties do.

use super::rows::total_rows;
use crate::circuit::{Circuit, Refusal, read as read_circuit};
use crate::session::{check_key_length, check_owners, refuse_place};
use crate::word::Kind;

/// How many rows garbling for two writes. Who owns the inputs is not looked at.
pub fn read(file: &[u8]) -> Result<u32, Refusal> {
    Ok(total_rows(&circuit(file)?))
}

/// 1 to 10, then 26: the circuit has no selector; the place is the first one's word.
fn circuit(file: &[u8]) -> Result<Circuit<'_>, Refusal> {
    let circuit = read_circuit(file)?;
    // In an accepted file a word of this kind stands nowhere but at the start of a selector.
    let (words, _) = file.as_chunks();
    let is_select = |word: &[u8; 4]| Kind::of(u32::from_le_bytes(*word)) == Some(Kind::Select);
    refuse_place(words.iter().position(is_select), 26)?;
    Ok(circuit)
}

/// What each call but reading begins with: 1 to 10, 26, then 11, of which only the key length is
/// given, and 13 with the two sides as the parties.
pub fn circuit_for_two(file: &[u8], k: u32) -> Result<Circuit<'_>, Refusal> {
    let circuit = circuit(file)?;
    check_key_length(k)?;
    check_owners(&circuit, 2)?;
    Ok(circuit)
}

//! Checks on what a call is given beside the circuit: parties, lengths, accounts and values.

use crate::circuit::{Circuit, Refusal, read};
use crate::contribution::{Contribution, byte_moduli};
use crate::meter::ACCOUNTS;

/// How many inputs a party owns in a circuit for n parties.
pub fn inputs_of(file: &[u8], n: u32, party: u32) -> Result<u32, Refusal> {
    let circuit = read(file)?;
    check_parties(n)?;
    check_party(n, party)?;
    check_seats(&circuit, n)?;
    Ok(circuit.inputs_of(party))
}

/// 11: there are two to eight parties.
pub fn check_parties(n: u32) -> Result<(), Refusal> {
    refuse_unless((2..=8).contains(&n), 11, 0)
}

/// 11: keys have 1 to 128 bytes.
pub fn check_key_length(k: u32) -> Result<(), Refusal> {
    refuse_unless((1..=128).contains(&k), 11, 0)
}

/// 12: the party asked for is one of them.
pub fn check_party(n: u32, party: u32) -> Result<(), Refusal> {
    refuse_unless(party < n, 12, party as usize)
}

/// 13, then 28: the circuit has to do with nobody but n parties.
pub fn check_seats(circuit: &Circuit, n: u32) -> Result<(), Refusal> {
    check_owners(circuit, n)?;
    check_named(circuit, n)
}

/// 13: every input's owner is one of them.
pub fn check_owners(circuit: &Circuit, n: u32) -> Result<(), Refusal> {
    let stranger = circuit.owners().position(|owner| u32::from(owner) >= n);
    refuse_place(stranger, 13)
}

/// 28: every seat that an output names is one of theirs; the place is the first output for which that
/// is not so.
fn check_named(circuit: &Circuit, n: u32) -> Result<(), Refusal> {
    let mut outputs = circuit.outputs.iter();
    refuse_place(outputs.position(|output| output.names_beyond(n)), 28)
}

/// 14: each lent length is exact.
pub fn check_lengths(lengths: &[(usize, usize)]) -> Result<(), Refusal> {
    let exact = lengths.iter().all(|(lent, due)| lent == due);
    refuse_unless(exact, 14, 0)
}

/// 25: the account is one of those that the meter has. It stands directly after 14.
pub fn check_account(account: u32) -> Result<(), Refusal> {
    refuse_unless(account < ACCOUNTS as u32, 25, 0)
}

/// 15: each byte is below its modulus.
pub fn check_below(bytes: &[u8], moduli: impl ExactSizeIterator<Item = u8>) -> Result<(), Refusal> {
    let high = bytes.iter().zip(moduli).position(|(byte, p)| *byte >= p);
    refuse_place(high, 15)
}

/// 15 over two buffers, each with its moduli: the lowest index over both.
pub fn check_both_below(one: (&[u8], &[u8]), other: (&[u8], &[u8])) -> Result<(), Refusal> {
    let high = |(bytes, moduli): (&[u8], &[u8])| {
        let mut pairs = bytes.iter().zip(moduli);
        pairs.position(|(byte, p)| byte >= p)
    };
    let lowest = [high(one), high(other)].into_iter().flatten().min();
    refuse_place(lowest, 15)
}

/// 16: each byte of one or several contributions is below its modulus; the place is the lowest that
/// is not, counted through all of them.
pub fn check_contributions(circuit: &Circuit, k: usize, bytes: &[u8]) -> Result<(), Refusal> {
    let moduli = byte_moduli(circuit, k);
    let mut pairs = bytes.iter().zip(moduli.iter().cycle());
    refuse_place(pairs.position(|(byte, p)| byte >= p), 16)
}

/// 17: no offset is zero; the place is the lowest modulus over all parties.
pub fn check_offsets(parties: &[Contribution]) -> Result<(), Refusal> {
    let lowest = parties.iter().filter_map(Contribution::zero_offset).min();
    refuse_place(lowest.map(usize::from), 17)
}

/// 18: each key byte is below its input's modulus; the place is the lowest that is not. `size` is
/// that of all parties' keys together.
pub fn check_keys(circuit: &Circuit, size: usize, keys: &[u8]) -> Result<(), Refusal> {
    let moduli: Vec<u8> = circuit.input_moduli().collect();
    let bad = (0..keys.len()).find(|at| keys[*at] >= moduli[*at / size]);
    refuse_place(bad, 18)
}

/// 18: each row byte is below the modulus of the wire that the row is for; the place is the lowest
/// that is not. Keys are judged before.
pub fn check_rows(circuit: &Circuit, size: usize, rows: &[u8]) -> Result<(), Refusal> {
    let moduli = row_moduli(circuit);
    let bad = (0..rows.len()).find(|at| rows[*at] >= moduli[*at / size]);
    refuse_place(bad, 18)
}

/// The modulus of each row's bytes.
pub fn row_moduli(circuit: &Circuit) -> Vec<u8> {
    let of = |wire: &crate::circuit::Wire| vec![wire.modulus; wire.rows() as usize];
    circuit.wires.iter().flat_map(of).collect()
}

/// Refuses by this number unless the check holds.
pub fn refuse_unless(holds: bool, number: u32, place: usize) -> Result<(), Refusal> {
    refuse_place((!holds).then_some(place), number)
}

/// Refuses by this number where a place is named.
pub fn refuse_place(place: Option<usize>, number: u32) -> Result<(), Refusal> {
    match place {
        Some(place) => Err(Refusal { number, place }),
        None => Ok(()),
    }
}

#[cfg(test)]
mod tests {
    use super::*;
    use crate::word::*;

    fn answer(words: &[u32], n: u32, party: u32) -> Result<u32, (u32, usize)> {
        inputs_of(&file(words), n, party).map_err(|refusal| (refusal.number, refusal.place))
    }

    #[test]
    fn inputs_are_counted_by_owner() {
        let words = [HEAD, input(1, 2), input(0, 3), input(1, 5), output(0), END];
        assert_eq!(answer(&words, 2, 0), Ok(1));
        assert_eq!(answer(&words, 2, 1), Ok(2));
        assert_eq!(answer(&words, 8, 7), Ok(0));
    }

    #[test]
    fn parties_are_judged_in_order() {
        let words = [HEAD, input(0, 2), input(7, 3), input(5, 3), output(0), END];
        assert_eq!(answer(&words, 1, 9), Err((11, 0)));
        assert_eq!(answer(&words, 9, 9), Err((11, 0)));
        assert_eq!(answer(&words, 258, 0), Err((11, 0)));
        assert_eq!(answer(&words, 5, 5), Err((12, 5)));
        assert_eq!(answer(&words, 5, 256), Err((12, 256)));
        assert_eq!(answer(&words, 5, 4), Err((13, 1)));
        assert_eq!(answer(&words[..5], 1, 9), Err((10, 5)));
    }
}

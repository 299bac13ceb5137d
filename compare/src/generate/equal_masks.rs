//! Other contributions to a circuit, with the same masks wherever a seat may read.

use super::settings::{Setting, contributions};
use crate::circuit::Circuit;
use crate::contribution::{Contribution, length, modulo};
use crate::garble::masks;
use crate::rng::Rng;

/// Contributions of n parties with keys of k bytes, drawn anew: keys, offsets and mask shares. The mask
/// of every output that the seat may read is as the setting has it; those of others may not be.
pub fn with_equal_masks(
    circuit: &Circuit,
    setting: &Setting,
    (n, k): (u32, u32),
    seat: u32,
    rng: &mut Rng,
) -> Vec<u8> {
    let k = k as usize;
    let mut drawn = contributions(circuit, n as usize, k, rng);
    let before = shares_of(circuit, setting.k as usize, &setting.contributions);
    let drawn_shares = shares_of(circuit, k, &drawn);
    let places = share_places(circuit, k);
    // Each record's mask as it was, by the first party's share.
    for (at, (wire, place)) in places.iter().enumerate() {
        let p = circuit.wires[*wire].modulus;
        let more = before[at] - drawn_shares[at];
        drawn[*place] = modulo(p, i32::from(drawn[*place]) + more);
    }
    let due = read_masks(circuit, k, &drawn, seat);
    for _ in 0..rng.pick(&[0, 2, 8]) {
        let (wire, place) = rng.pick(&places);
        let before = drawn[place];
        drawn[place] = rng.below(usize::from(circuit.wires[wire].modulus)) as u8;
        if read_masks(circuit, k, &drawn, seat) != due {
            drawn[place] = before;
        }
    }
    drawn
}

/// Of each record the sum of all parties' mask shares.
fn shares_of(circuit: &Circuit, k: usize, contributions: &[u8]) -> Vec<i32> {
    let sum = |(_, place): (usize, usize)| {
        let own = contributions.chunks(length(circuit, k));
        own.map(|own| i32::from(own[place])).sum()
    };
    share_places(circuit, k).into_iter().map(sum).collect()
}

/// The seat of n that may read the fewest outputs: for it most masks are free.
pub fn least_reader(circuit: &Circuit, n: u32) -> u32 {
    let reads = |seat: &u32| {
        let outputs = circuit.outputs.iter();
        outputs.filter(|output| output.is_for(*seat)).count()
    };
    (0..n).min_by_key(reads).expect("two parties or more")
}

/// Each wire that has a record, and where in a contribution the share of its mask lies.
fn share_places(circuit: &Circuit, k: usize) -> Vec<(usize, usize)> {
    let mut start = k * circuit.moduli().len();
    let mut places = Vec::new();
    for (number, wire) in circuit.wires.iter().enumerate() {
        let count = wire.records() as usize;
        if count > 0 {
            places.push((number, start + count * k));
        }
        start += count * (k + 1);
    }
    places
}

/// The masks of the outputs that a seat may read.
fn read_masks(circuit: &Circuit, k: usize, contributions: &[u8], seat: u32) -> Vec<u8> {
    let parties = contributions.chunks(length(circuit, k));
    let parties: Vec<Contribution> = parties
        .map(|bytes| Contribution::new(circuit, k, bytes))
        .collect();
    let masks = masks(circuit, &parties);
    let read = circuit.outputs.iter().filter(|output| output.is_for(seat));
    read.map(|output| masks[usize::from(output.wire)]).collect()
}

#[cfg(test)]
mod tests {
    use super::*;
    use crate::circuit::read;
    use crate::generate::settings::small;

    #[test]
    fn masks_are_equal_where_the_seat_reads() {
        let mut rng = Rng::new(1);
        let mut others = 0;
        for _ in 0..300 {
            let setting = small(&mut rng);
            let circuit = read(&setting.file).expect("accepted");
            let Setting { n, k, .. } = setting;
            let seat = least_reader(&circuit, n);
            // More parties, and longer keys.
            let again = with_equal_masks(&circuit, &setting, (n + 1, k + 2), seat, &mut rng);
            assert_eq!(
                again.len(),
                (n + 1) as usize * length(&circuit, k as usize + 2)
            );
            let before = |seat| read_masks(&circuit, k as usize, &setting.contributions, seat);
            let after = |seat| read_masks(&circuit, k as usize + 2, &again, seat);
            assert_eq!(after(seat), before(seat));
            others += u32::from((0..n).any(|seat| after(seat) != before(seat)));
        }
        // Often enough somebody else has another mask.
        assert!(others > 20, "{others}");
    }
}

//! Circuits without selectors, and circuits with some put in.

use crate::circuit::{Circuit, MOST_WIRES, read};
use crate::rng::Rng;
use crate::word::{self, Kind};

/// The circuit with a sum in place of each selector: the same wires with the same moduli.
pub fn without_selects(words: &[u32]) -> Vec<u32> {
    let mut others = Vec::with_capacity(words.len());
    for word in words {
        match Kind::of(*word) {
            Some(Kind::Select) => {}
            // Sums have their wires where branches have them.
            Some(Kind::Branches) => others.push(word::add(0, 0) | word & Kind::Branches.fields()),
            _ => others.push(*word),
        }
    }
    others
}

/// The words of an accepted circuit, gate by gate: those of a projection have its table with them.
fn by_gate(file: &[u8]) -> Vec<Vec<u32>> {
    let (words, _) = file.as_chunks();
    let mut gates: Vec<Vec<u32>> = Vec::new();
    for word in words.iter().map(|word| u32::from_le_bytes(*word)) {
        match (Kind::of(word), gates.last_mut()) {
            (Some(Kind::Entry | Kind::Branches), Some(gate)) => gate.push(word),
            _ => gates.push(vec![word]),
        }
    }
    gates
}

/// The circuit with a selector in place of some of its gates, or with one after its gates. There is
/// none where no gate can be one and there are too many wires for one more.
pub fn with_selects(file: &[u8], rng: &mut Rng) -> Option<Vec<u8>> {
    let circuit = read(file).expect("an accepted circuit");
    let mut gates = by_gate(file);
    let gate_wires = circuit.inputs..circuit.wires.len();
    let possible: Vec<usize> = gate_wires
        .filter(|wire| can_select(&circuit, *wire))
        .collect();
    if possible.is_empty() {
        return with_last_select(&circuit, gates);
    }
    // All of them now and then, else one or a few; a head stands before the first wire.
    let count = rng.pick(&[1, 1, 2, 3, possible.len()]);
    for _ in 0..count {
        let wire = rng.pick(&possible);
        gates[1 + wire] = select_at(&circuit, wire, rng);
    }
    Some(word::file(&gates.concat()))
}

/// The wires below this one that have this modulus.
fn wires_of(circuit: &Circuit, below: usize, p: u8) -> Vec<u32> {
    let has = |wire: &usize| circuit.wires[*wire].modulus == p;
    (0..below).filter(has).map(|wire| wire as u32).collect()
}

/// Whether a selector can make this wire: there are a bit and a branch for it.
fn can_select(circuit: &Circuit, wire: usize) -> bool {
    let p = circuit.wires[wire].modulus;
    [2, p]
        .iter()
        .all(|p| !wires_of(circuit, wire, *p).is_empty())
}

fn select_at(circuit: &Circuit, wire: usize, rng: &mut Rng) -> Vec<u32> {
    let bits = wires_of(circuit, wire, 2);
    let branches = wires_of(circuit, wire, circuit.wires[wire].modulus);
    let (a, b) = (rng.pick(&branches), rng.pick(&branches));
    vec![word::select(rng.pick(&bits)), word::branches(a, b)]
}

/// A selector right before the outputs, by a bit that is made for it.
fn with_last_select(circuit: &Circuit, mut gates: Vec<Vec<u32>>) -> Option<Vec<u8>> {
    let wires = circuit.wires.len();
    if wires + 2 > MOST_WIRES {
        return None;
    }
    let p = circuit.wires[0].modulus.into();
    let bit = [word::project(2, 0)].into_iter();
    let bit = bit.chain((0..p).map(|value| word::entry(value % 2)));
    let select = vec![word::select(wires as u32), word::branches(0, 0)];
    gates.splice(1 + wires..1 + wires, [bit.collect(), select]);
    Some(word::file(&gates.concat()))
}

#[cfg(test)]
mod tests {
    use super::*;
    use crate::circuit::Gate;
    use crate::generate::circuits::{accepted, at_limit};

    fn selects(file: &[u8]) -> usize {
        let circuit = read(file).expect("accepted");
        let is = |gate: &Gate| matches!(gate, Gate::Select { .. });
        circuit.wires.iter().filter(|wire| is(&wire.gate)).count()
    }

    #[test]
    fn selectors_are_taken_out_and_put_in() {
        let mut rng = Rng::new(1);
        let mut counts = [0; 4];
        for case in 0..600 {
            let words = match case % 10 {
                0 => at_limit(&mut rng),
                _ => accepted(&mut rng),
            };
            let without = word::file(&without_selects(&words));
            assert_eq!(selects(&without), 0);
            let moduli = |file: &[u8]| -> Vec<u8> {
                let wires = read(file).expect("accepted").wires;
                wires.iter().map(|wire| wire.modulus).collect()
            };
            assert_eq!(moduli(&without), moduli(&word::file(&words)));
            match with_selects(&without, &mut rng) {
                None => counts[0] += 1,
                Some(with) => counts[selects(&with).min(3)] += 1,
            }
        }
        // Full of inputs; then one, two, more.
        assert!(counts.iter().all(|count| *count > 0), "{counts:?}");
        assert!(counts[0] < 20, "{counts:?}");
    }
}

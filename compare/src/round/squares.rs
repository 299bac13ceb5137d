//! Squares, which are garbled as projections: which ones a round has that came out right. A bit times
//! itself has no rows and is counted apart.

use crate::counts::Counts;
use compare::circuit::{Circuit, Gate, Wire, read};
use compare::generate::circuits::all_moduli;
use compare::generate::settings::Setting;

pub const HEADING: &str = "right rounds with squares, by modulus";

/// The sorts of squares: each is of the first, and may be of others. Another product counts where it
/// has the square's modulus.
pub const SORTS: [&str; 4] = [
    "of anything",
    "beside another product",
    "of a square",
    "of a sum",
];

/// The moduli at which each must be met: all but 2.
pub fn moduli() -> Vec<u32> {
    let mut moduli = all_moduli();
    moduli.retain(|p| *p != 2);
    moduli
}

/// Counts a round that came out right.
pub fn count(setting: &Setting, counts: &mut Counts) {
    let circuit = read(&setting.file).expect("an accepted circuit");
    for p in circuit.moduli().into_iter().filter(|p| *p != 2) {
        let is = sorts(&circuit, p);
        counts.add_met(HEADING, &SORTS, &is, p.into());
    }
}

/// Of which sorts there are squares of this modulus.
fn sorts(circuit: &Circuit, p: u8) -> [bool; 4] {
    let wires = circuit.wires.iter().filter(|wire| wire.modulus == p);
    let (mut squared, mut products) = (Vec::new(), 0);
    for wire in wires {
        match wire.gate {
            Gate::Multiply { a, b } if a == b => squared.push(circuit.wires[usize::from(a)]),
            Gate::Multiply { .. } => products += 1,
            _ => {}
        }
    }
    let of_sum = |wire: &Wire| matches!(wire.gate, Gate::Add { .. });
    [
        !squared.is_empty(),
        !squared.is_empty() && products > 0,
        squared.iter().any(Wire::is_square),
        squared.iter().any(of_sum),
    ]
}

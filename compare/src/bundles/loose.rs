//! Calls with any numbers.

use super::call::{Call, Name};
use compare::generate::bundle_numbers::{edge_bundles, edge_firsts, edge_integers, wrong_counts};
use compare::rng::Rng;

/// A call with any numbers, of which those at the edges are likeliest.
pub fn loose(name: Name, rng: &mut Rng) -> Call {
    let near = rng.between(2, 10) as u32;
    let r = match rng.below(4) {
        0 => rng.pick(&wrong_counts(near)),
        1 => rng.next_u32() >> rng.below(32),
        _ => near,
    };
    let integer = match rng.below(3) {
        0 => rng.next_u64() >> rng.below(64),
        _ => rng.pick(&edge_integers(near)),
    };
    let first = any_wire(&edge_firsts(near), rng);
    let [a, b] = [(); 2].map(|()| any_wire(&edge_bundles(near, first), rng));
    Call {
        name,
        r,
        integer,
        first,
        a,
        b,
        buffer: any_buffer(name, near, rng),
        before: rng.next_u64(),
        nulls: rng.once_in(2),
    }
}

fn any_wire(edges: &[u32], rng: &mut Rng) -> u32 {
    match rng.below(4) {
        0 => rng.next_u32() >> rng.below(32),
        _ => rng.pick(edges),
    }
}

/// Residues that may be too many or too few or too large, or a buffer for a file.
fn any_buffer(name: Name, r: u32, rng: &mut Rng) -> Vec<u8> {
    let exact = r as usize;
    match name {
        Name::Split | Name::Join => {
            let length = rng.pick(&[exact, exact, exact - 1, exact + 1, 0, 10, 300]);
            let shift = rng.pick(&[0, 4, 7, 8]);
            let byte = |byte: u8| (u32::from(byte) >> shift) as u8;
            rng.bytes(length).into_iter().map(byte).collect()
        }
        _ => {
            let any = rng.below(600);
            let length = rng.pick(&[4 * exact, 4 * exact - 1, 0, 600, any]);
            rng.bytes(length)
        }
    }
}

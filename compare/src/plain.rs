//! The plain circuit: what the outputs are, with no keys and no masks.

use crate::circuit::{Circuit, Gate, Refusal, read};
use crate::session::{check_below, check_lengths};

/// Writes one byte per output, from one value per input.
pub fn plain(file: &[u8], values: &[u8], outputs: &mut [u8]) -> Result<(), Refusal> {
    let circuit = read(file)?;
    check_lengths(&[
        (values.len(), circuit.inputs),
        (outputs.len(), circuit.outputs.len()),
    ])?;
    check_below(values, circuit.input_moduli())?;
    let wires = wire_values(&circuit, values);
    for (value, output) in outputs.iter_mut().zip(&circuit.outputs) {
        *value = wires[usize::from(output.wire)];
    }
    Ok(())
}

/// The value of every wire, from values that have passed the checks.
pub fn wire_values(circuit: &Circuit, values: &[u8]) -> Vec<u8> {
    let mut wires: Vec<u8> = Vec::with_capacity(circuit.wires.len());
    // The inputs are the lowest wires, so an input's wire number is its place among the values.
    for (number, wire) in circuit.wires.iter().enumerate() {
        let at = |wire: u16| wires[usize::from(wire)];
        let reduce = |whole: u16| (whole % u16::from(wire.modulus)) as u8;
        let value = match wire.gate {
            Gate::Input { .. } => values[number],
            Gate::Add { a, b } => reduce(u16::from(at(a)) + u16::from(at(b))),
            Gate::Scale { constant, a } => reduce(u16::from(constant) * u16::from(at(a))),
            Gate::Multiply { a, b } => reduce(u16::from(at(a)) * u16::from(at(b))),
            Gate::Project { a, table } => table.image(at(a)),
            Gate::Select { bit, a, b } => at(if at(bit) == 0 { a } else { b }),
        };
        wires.push(value);
    }
    wires
}

#[cfg(test)]
mod tests {
    use super::*;
    use crate::word::*;

    fn outputs(words: &[u32], values: &[u8], length: usize) -> Result<Vec<u8>, (u32, usize)> {
        let mut outputs = vec![0; length];
        plain(&file(words), values, &mut outputs)
            .map(|()| outputs)
            .map_err(|refusal| (refusal.number, refusal.place))
    }

    const SELECTED: [u32; 8] = [
        HEAD,
        input(0, 2),
        input(1, 5),
        input(1, 5),
        select(0),
        branches(1, 2),
        output(3),
        END,
    ];

    #[test]
    fn select_gives_a_at_0_and_b_at_1() {
        assert_eq!(outputs(&SELECTED, &[0, 2, 4], 1), Ok(vec![2]));
        assert_eq!(outputs(&SELECTED, &[1, 2, 4], 1), Ok(vec![4]));
    }

    #[test]
    fn arithmetic_stays_below_the_modulus() {
        let words = [
            HEAD,
            input(0, 251),
            input(0, 251),
            add(0, 1),
            multiply(0, 1),
            scale(250, 0),
            project(2, 0),
        ];
        let parity = (0..251).map(|value| entry(value % 2));
        let rest = [output(2), output(3), output(4), output(5), END];
        let words: Vec<u32> = words.into_iter().chain(parity).chain(rest).collect();
        // 250 is -1 modulo 251.
        assert_eq!(outputs(&words, &[250, 249], 4), Ok(vec![248, 2, 1, 0]));
    }

    #[test]
    fn lengths_come_before_values() {
        assert_eq!(outputs(&SELECTED, &[2, 5, 5], 2), Err((14, 0)));
        assert_eq!(outputs(&SELECTED, &[2, 5], 1), Err((14, 0)));
        assert_eq!(outputs(&SELECTED, &[0, 5, 5], 1), Err((15, 1)));
    }
}

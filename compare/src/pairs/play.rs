//! A whole round for two: each call takes what the calls before it wrote.

use super::case::Case;
use super::gates;
use super::laws::{INPUTS_KEPT, KEY_IS_EXTERNAL, PLAIN_DECODED, ROWS_CHARGED, VALUE_TIMES_OFFSET};
use super::step::{Name, Step};
use crate::call::{ACCEPTED, Call};
use crate::{engine, second};
use compare::circuit::{Circuit, read};
use compare::contribution::combined;
use compare::generate::pair_settings::PairSetting;
use compare::generate::settings::below;
use compare::pair::draw::Draw;
use compare::plain::wire_values;

/// A round: its calls, and what garbling and opening wrote.
pub struct Round {
    /// Reading, garbling, input keys, opening and decoding.
    pub steps: [Step; 5],
    pub output_masks: Vec<u8>,
    pub opened: Opened,
    pub right: bool,
}

pub struct Opened {
    keys: Step,
    opening: Step,
    decoding: Step,
    pub wire_keys: Vec<u8>,
    pub wire_externals: Vec<u8>,
    right: bool,
}

/// What garbling wrote.
struct Garbled {
    rows: Vec<u8>,
    output_masks: Vec<u8>,
}

impl Case<'_> {
    /// Plays a round, and opens it for other values too: one garbling serves any. It is right where
    /// the engine accepted every call and every law held.
    pub fn play_round(&mut self, setting: &PairSetting) -> Round {
        let circuit = read(&setting.file).expect("an accepted circuit");
        let reading = Step::new(setting, &circuit, Name::Read, vec![], &mut self.rng);
        let after = self.make(&reading).engines;
        let (rows, mut right) = (after.loan.numbers[0], after.answer == ACCEPTED);
        let (garbling, garbled, charged) = self.garbled(setting, &circuit, rows);
        right &= charged;
        let opened = self.opened(setting, &circuit, &garbled, setting.values.clone());
        let moduli: Vec<u8> = circuit.input_moduli().collect();
        let others = below(&moduli, &mut self.rng);
        let again = self.opened(setting, &circuit, &garbled, others.clone());
        right &= opened.right && again.right;
        let differ = keys_differ(setting, &circuit, (&opened, &again), &others);
        right &= self.law(VALUE_TIMES_OFFSET, differ);
        for (sort, p) in gates::sorts(&circuit, &opened.wire_externals) {
            if right {
                self.tally.counts.add(gates::HEADING, sort, p);
            }
        }
        Round {
            steps: [
                reading,
                garbling,
                opened.keys.clone(),
                opened.opening.clone(),
                opened.decoding.clone(),
            ],
            output_masks: garbled.output_masks,
            opened,
            right,
        }
    }

    /// Garbles; whether that was accepted and charged as it must be.
    fn garbled(
        &mut self,
        setting: &PairSetting,
        circuit: &Circuit,
        rows: u32,
    ) -> (Step, Garbled, bool) {
        let given = vec![setting.draw.clone()];
        let step = Step::new(setting, circuit, Name::Garble, given, &mut self.rng);
        let after = self.make(&step).engines;
        let mut totals = step.meter.totals.map(u64::from);
        totals[step.account as usize] += u64::from(rows);
        let left = after.loan.numbers[..8]
            .iter()
            .map(|total| u64::from(*total));
        let charged = self.law(ROWS_CHARGED, left.eq(totals));
        let buffer = |at: usize| after.loan.buffers[at].content().to_vec();
        let garbled = Garbled {
            rows: buffer(1),
            output_masks: buffer(2),
        };
        (step, garbled, charged && after.answer == ACCEPTED)
    }

    /// Makes input keys for these values, opens and decodes.
    fn opened(
        &mut self,
        setting: &PairSetting,
        circuit: &Circuit,
        garbled: &Garbled,
        values: Vec<u8>,
    ) -> Opened {
        let given = vec![setting.draw.clone(), values.clone()];
        let keys = Step::new(setting, circuit, Name::InputKeys, given, &mut self.rng);
        let after = self.make(&keys).engines;
        let mut right = after.answer == ACCEPTED;
        let input_keys = after.loan.buffers[2].content().to_vec();
        let given = vec![input_keys.clone(), garbled.rows.clone()];
        let opening = Step::new(setting, circuit, Name::Open, given, &mut self.rng);
        let after = self.make(&opening).engines;
        right &= after.answer == ACCEPTED;
        let [wire_keys, wire_externals] =
            [2, 3].map(|at: usize| after.loan.buffers[at].content().to_vec());
        right &= self.law(INPUTS_KEPT, wire_keys.starts_with(&input_keys));
        let firsts = wire_keys.iter().step_by(setting.k as usize);
        right &= self.law(KEY_IS_EXTERNAL, firsts.eq(&wire_externals));
        let decoding = self.decoding(&opening, &wire_externals, &garbled.output_masks);
        let decoded = self.decoded(&decoding);
        let plain = plain(&setting.file, values, circuit.outputs.len());
        right &= self.law(PLAIN_DECODED, decoded.is_some() && decoded == plain);
        Opened {
            keys,
            opening,
            decoding,
            wire_keys,
            wire_externals,
            right,
        }
    }
}

/// The plain outputs, if both programs give the same.
fn plain(file: &[u8], values: Vec<u8>, outputs: usize) -> Option<Vec<u8>> {
    let call = Call::Plain { values, outputs };
    let (ours, engines) = (second::run(file, &call), engine::run(file, &call));
    let outputs = || engines.loan.buffers[1].content().to_vec();
    (ours == engines).then(outputs)
}

/// Whether every wire's keys in two openings of one garbling differ as its plain values do, times the
/// offset. The second opening was for other values.
fn keys_differ(
    setting: &PairSetting,
    circuit: &Circuit,
    (one, other): (&Opened, &Opened),
    others: &[u8],
) -> bool {
    let k = setting.k as usize;
    let draw = Draw::checked(circuit, k, &setting.draw).expect("a draw with no fault");
    let values = wire_values(circuit, &setting.values);
    let others = wire_values(circuit, others);
    let keys = one.wire_keys.chunks(k).zip(other.wire_keys.chunks(k));
    let mut wires = circuit
        .wires
        .iter()
        .zip(keys)
        .zip(values.iter().zip(&others));
    wires.all(|((wire, (key, other_key)), (value, other_value))| {
        let more = i32::from(*value) - i32::from(*other_value);
        let offset = draw.offset(wire.modulus);
        combined(wire.modulus, other_key, more, offset) == key
    })
}

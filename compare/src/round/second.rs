//! The calls of a round, and carrying an old total over, as this program answers them.

use super::carry::{Carry, Held};
use super::step::{Name, Step};
use crate::call::{ACCEPTED, After, Answer, Lent, Loan};
use compare::circuit::Refusal;
use compare::decode::decode;
use compare::garble::{Written, garble};
use compare::inputs::{externals, input_keys};
use compare::meter::{self, ACCOUNTS, Meter};
use compare::open::{Given, open};

/// Makes a call of this program.
pub fn run(step: &Step) -> After {
    let mut loan = step.loan();
    let answer = match made(step, &mut loan) {
        Ok(()) => ACCEPTED,
        Err(Refusal { number, place }) => Answer { number, place },
    };
    After { answer, loan }
}

/// Carries an old total over into a meter.
pub fn carry(carry: &Carry) -> Held {
    let mut held = carry.lent();
    changed(&mut held, |meter| meter::carry(carry.total, meter));
    held
}

/// Changes the meter that the first numbers are.
pub fn changed<A>(numbers: &mut [u32], change: impl FnOnce(&mut Meter) -> A) -> A {
    let (totals, _) = numbers
        .split_first_chunk_mut::<ACCOUNTS>()
        .expect("a meter is lent");
    let mut meter = Meter { totals: *totals };
    let answer = change(&mut meter);
    *totals = meter.totals;
    answer
}

fn made(step: &Step, loan: &mut Loan) -> Result<(), Refusal> {
    let Step {
        n, k, party, round, ..
    } = *step;
    let file = loan.file.content();
    match (step.name, &mut loan.buffers[..]) {
        (Name::Garble, [contributions, rows, input_masks, output_masks]) => {
            let written = Written {
                rows: rows.content_mut(),
                input_masks: input_masks.content_mut(),
                output_masks: output_masks.content_mut(),
            };
            let (numbers, given) = ((n, k, round, step.account), contributions.content());
            changed(&mut loan.numbers, |meter| {
                garble(file, numbers, given, written, meter)
            })
        }
        (Name::Externals, [values, masks, written]) => externals(
            file,
            (n, party),
            values.content(),
            masks.content(),
            written.content_mut(),
        ),
        (Name::InputKeys, [contribution, externals, keys]) => input_keys(
            file,
            (n, k, party),
            contribution.content(),
            externals.content(),
            keys.content_mut(),
        ),
        (Name::Open, [given @ .., wire_keys, wire_externals]) => open(
            file,
            (n, k, party, round),
            &given_to_open(given),
            wire_keys.content_mut(),
            wire_externals.content_mut(),
        ),
        (Name::Decode, [externals, masks, outputs]) => decode(
            file,
            (n, party),
            externals.content(),
            masks.content(),
            outputs.content_mut(),
        ),
        _ => unreachable!("each call is lent its own number of buffers"),
    }
}

fn given_to_open(lent: &[Lent]) -> Given<'_> {
    Given {
        contribution: lent[0].content(),
        externals: lent[1].content(),
        keys: lent[2].content(),
        rows: lent[3].content(),
    }
}

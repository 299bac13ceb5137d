//! The calls for two as this program answers them.

use super::step::{Name, Step};
use crate::call::{ACCEPTED, After, Answer, Loan};
use crate::round::second::changed;
use compare::circuit::Refusal;
use compare::pair::{decode, garble, input_keys, open, read};

/// Makes a call of this program.
pub fn run(step: &Step) -> After {
    let mut loan = step.loan();
    let answer = match made(step, &mut loan) {
        Ok(()) => ACCEPTED,
        Err(Refusal { number, place }) => Answer { number, place },
    };
    After { answer, loan }
}

fn made(step: &Step, loan: &mut Loan) -> Result<(), Refusal> {
    let Step { k, round, .. } = *step;
    let file = loan.file.content();
    match (step.name, &mut loan.buffers[..]) {
        (Name::Read, []) => {
            loan.numbers[0] = read(file)?;
            Ok(())
        }
        (Name::Garble, [draw, rows, output_masks]) => {
            let numbers = (k, round, step.account);
            let (rows, masks) = (rows.content_mut(), output_masks.content_mut());
            changed(&mut loan.numbers, |meter| {
                garble(file, numbers, draw.content(), rows, masks, meter)
            })
        }
        (Name::InputKeys, [draw, values, keys]) => input_keys(
            file,
            k,
            draw.content(),
            values.content(),
            keys.content_mut(),
        ),
        (Name::Open, [keys, rows, wire_keys, wire_externals]) => open(
            file,
            (k, round),
            keys.content(),
            rows.content(),
            wire_keys.content_mut(),
            wire_externals.content_mut(),
        ),
        (Name::Decode, [externals, masks, outputs]) => decode(
            file,
            externals.content(),
            masks.content(),
            outputs.content_mut(),
        ),
        _ => unreachable!("each call is lent its own number of buffers"),
    }
}

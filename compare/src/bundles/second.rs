//! The calls of bundles as this program answers them.

use super::call::{After, Call, Loan, Name};
use crate::call::{ACCEPTED, Answer};
use compare::bundle;
use compare::circuit::Refusal;

/// Makes a call of this program.
pub fn run(call: &Call) -> After {
    let mut loan = call.loan();
    let answer = match made(call, &mut loan) {
        Ok(()) => ACCEPTED,
        Err(Refusal { number, place }) => Answer { number, place },
    };
    After { answer, loan }
}

fn made(call: &Call, loan: &mut Loan) -> Result<(), Refusal> {
    let Call {
        r,
        integer,
        first,
        a,
        b,
        ..
    } = *call;
    let (buffer, words) = (&mut loan.buffer, &mut loan.words[0]);
    match call.name {
        Name::Split => bundle::split(r, integer, buffer.content_mut()),
        Name::Join => bundle::join(r, buffer.content(), &mut loan.integer[0]),
        Name::Add => bundle::add(r, (first, a, b), buffer.content_mut(), words),
        Name::Multiply => bundle::multiply(r, (first, a, b), buffer.content_mut(), words),
        Name::Scale => bundle::scale(r, (first, a), integer, buffer.content_mut(), words),
    }
}

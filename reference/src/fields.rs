//! For a caller who wants to set a field: its range, and the value it has in a patch.

use crate::answers::{RangeOutcome, Refusal, ValueOutcome, DONE, NOT_ALLOWED};
use crate::patch::tested;
use crate::table::{place_of, FIELDS, ROWS};

/// The least and the greatest value of a parameter, with their signs; 8 for a number that is no
/// parameter's.
pub fn range_of(parameter: u8) -> RangeOutcome {
    match field(parameter) {
        Ok(place) => RangeOutcome {
            answer: DONE,
            detail: 0,
            value: 0,
            least: ROWS[place].least.into(),
            greatest: ROWS[place].greatest.into(),
        },
        Err(refusal) => RangeOutcome {
            answer: refusal.answer,
            detail: refusal.detail,
            value: refusal.value,
            least: 0,
            greatest: 0,
        },
    }
}

/// The value a parameter has in a patch, with its sign: the parameter's 8, then the patch's 7, 11
/// and 12.
pub fn value_of(patch: &[u8], parameter: u8) -> ValueOutcome {
    match held(patch, parameter) {
        Ok(held) => ValueOutcome {
            answer: DONE,
            detail: 0,
            value: 0,
            held,
        },
        Err(refusal) => ValueOutcome {
            answer: refusal.answer,
            detail: refusal.detail,
            value: refusal.value,
            held: 0,
        },
    }
}

fn held(patch: &[u8], parameter: u8) -> Result<i16, Refusal> {
    let place = field(parameter)?;
    let patch = tested(patch)?;
    Ok(FIELDS.value_at(place, patch[place]))
}

/// The byte place of a parameter, else 8.
fn field(parameter: u8) -> Result<usize, Refusal> {
    place_of(parameter)
        .map(usize::from)
        .ok_or(Refusal::plain(NOT_ALLOWED))
}

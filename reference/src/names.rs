//! Names as text.

use crate::answers::{Outcome, Refusal, NOT_ALLOWED, TOO_SHORT, WRONG_LENGTH};
use crate::patch::{sized_mut, test, tested};

/// The number of characters in a name, bytes 0 to 7 of a patch.
pub const NAME_LENGTH: usize = 8;

/// Sets the name of a lent patch.
///
/// The patch's length, the name's length (7), its characters (8), then the patch's 11 and 12.
pub fn set_name(patch: &mut [u8], name: &[u8]) -> Outcome {
    set(patch, name).map(|()| 0).into()
}

fn set(patch: &mut [u8], name: &[u8]) -> Result<(), Refusal> {
    let patch = sized_mut(patch)?;
    let name: &[u8; NAME_LENGTH] = name.try_into().map_err(|_| Refusal::plain(WRONG_LENGTH))?;
    if !name.iter().all(|character| (32..=95).contains(character)) {
        return Err(Refusal::plain(NOT_ALLOWED));
    }
    test(patch)?;
    // The lower six bits: 64..95 become 0..31, and 32..63 stay.
    for (byte, character) in patch.iter_mut().zip(name) {
        *byte = character & 0x3F;
    }
    Ok(())
}

/// Shows the name of a patch as eight bytes of text in a lent output.
///
/// The patch's 7, 11 and 12, then 13.
pub fn show_name(patch: &[u8], out: &mut [u8]) -> Outcome {
    show(patch, out).map(|()| NAME_LENGTH).into()
}

fn show(patch: &[u8], out: &mut [u8]) -> Result<(), Refusal> {
    let patch = tested(patch)?;
    let text = out
        .first_chunk_mut::<NAME_LENGTH>()
        .ok_or(Refusal::plain(TOO_SHORT))?;
    for (character, &byte) in text.iter_mut().zip(patch) {
        *character = if byte < 32 { byte + 64 } else { byte };
    }
    Ok(())
}

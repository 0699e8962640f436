//! The tests of a patch: its length, its fields, its buses.

use crate::answers::{Outcome, Refusal, HALF_USED, WRONG_LENGTH};
use crate::table::{FIELDS, PATCH_LENGTH};

/// The place of bus 0's source; three bytes to a bus.
pub(crate) const BUSES: usize = 104;

/// A patch's packed bytes.
pub(crate) type Patch = [u8; PATCH_LENGTH];

/// Tests a patch: 7, then 11 with the lowest place and its value, then 12 with the lowest bus.
pub fn test_patch(patch: &[u8]) -> Outcome {
    tested(patch).map(|_| 0).into()
}

/// A patch that passes the tests: 7, 11, 12.
pub(crate) fn tested(patch: &[u8]) -> Result<&Patch, Refusal> {
    let patch = sized(patch)?;
    test(patch)?;
    Ok(patch)
}

/// The same for a patch to be changed.
pub(crate) fn tested_mut(patch: &mut [u8]) -> Result<&mut Patch, Refusal> {
    let patch = sized_mut(patch)?;
    test(patch)?;
    Ok(patch)
}

/// A lent patch is 134 bytes long, else 7.
pub(crate) fn sized(patch: &[u8]) -> Result<&Patch, Refusal> {
    patch.try_into().map_err(|_| Refusal::plain(WRONG_LENGTH))
}

/// The same for a patch to be changed.
pub(crate) fn sized_mut(patch: &mut [u8]) -> Result<&mut Patch, Refusal> {
    patch.try_into().map_err(|_| Refusal::plain(WRONG_LENGTH))
}

/// 11 with the lowest place and its value, then 12 with the lowest bus.
pub(crate) fn test(patch: &Patch) -> Result<(), Refusal> {
    FIELDS.test(patch)?;
    match first_half_used(patch) {
        Some(bus) => Err(Refusal::at(HALF_USED, bus)),
        None => Ok(()),
    }
}

fn first_half_used(patch: &Patch) -> Option<usize> {
    let (buses, _) = patch[BUSES..].as_chunks();
    buses
        .iter()
        .position(|&[source, _, destination]| half_used(source, destination))
}

/// A bus has source and destination both zero or both not.
pub(crate) const fn half_used(source: u8, destination: u8) -> bool {
    (source == 0) != (destination == 0)
}

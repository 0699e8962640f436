//! Remote edits (06H) and matrix modulation edits (0BH), tested and applied.

use crate::answers::{Outcome, Refusal, HALF_USED, NOT_ALLOWED};
use crate::patch::{half_used, tested_mut, Patch, BUSES};
use crate::table::{place_of, FIELDS};

/// The one parameter that isn't extended: VCF frequency has seven bits and no sign.
const VCF_FREQUENCY: u8 = 21;

/// Applies a remote edit to a lent patch: the edit's 8 and 11, then the patch's 7, 11 and 12.
pub fn apply_edit(patch: &mut [u8], parameter: u8, value: u8) -> Outcome {
    Change::new(parameter, value)
        .and_then(|change| tested_mut(patch).map(|patch| change.apply(patch)))
        .map(|()| 0)
        .into()
}

/// Applies a matrix modulation edit to a lent patch: the edit's 8, 11 and 12, then the patch's 7,
/// 11 and 12.
pub fn apply_bus_edit(
    patch: &mut [u8],
    bus: u8,
    source: u8,
    amount: u8,
    destination: u8,
) -> Outcome {
    BusChange::new(bus, source, amount, destination)
        .and_then(|change| tested_mut(patch).map(|patch| change.apply(patch)))
        .map(|()| 0)
        .into()
}

/// From seven bits to eight, by copying bit 6 into bit 7.
#[must_use]
pub const fn extend(value: u8) -> u8 {
    value | (value & 0x40) << 1
}

/// The byte that an allowed remote edit stores.
pub(crate) struct Change {
    place: usize,
    stored: u8,
}

impl Change {
    /// The tests that reading, writing and applying share: 8, then 11 with the value that would be
    /// stored.
    pub fn new(parameter: u8, value: u8) -> Result<Self, Refusal> {
        let place = match place_of(parameter) {
            Some(place) if value <= 127 => usize::from(place),
            _ => return Err(Refusal::plain(NOT_ALLOWED)),
        };
        let stored = if parameter == VCF_FREQUENCY {
            value
        } else {
            extend(value)
        };
        FIELDS.test_at(place, stored)?;
        Ok(Self { place, stored })
    }

    /// Stores what the edit says. A patch in range stays in range.
    pub fn apply(self, patch: &mut Patch) {
        patch[self.place] = self.stored;
    }
}

/// The three bytes that an allowed matrix modulation edit stores.
pub(crate) struct BusChange {
    place: usize,
    stored: [u8; 3],
}

impl BusChange {
    /// The tests that reading, writing and applying share: 8, then 11, then 12.
    pub fn new(bus: u8, source: u8, amount: u8, destination: u8) -> Result<Self, Refusal> {
        if bus > 9 || amount > 127 {
            return Err(Refusal::plain(NOT_ALLOWED));
        }
        let place = BUSES + 3 * usize::from(bus);
        let stored = [source, extend(amount), destination];
        for (place, byte) in (place..).zip(stored) {
            FIELDS.test_at(place, byte)?;
        }
        if half_used(source, destination) {
            return Err(Refusal::at(HALF_USED, usize::from(bus)));
        }
        Ok(Self { place, stored })
    }

    /// Stores what the edit says. A patch in range, without a bus half used, stays so.
    pub fn apply(self, patch: &mut Patch) {
        patch[self.place..][..3].copy_from_slice(&self.stored);
    }
}

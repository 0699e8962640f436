//! Splits of the Matrix-6R: the listing in Appendix D of source document 003, row by row, and the
//! tests of a split.
//!
//! The appendix has no column of value ranges, so every field has the range of its bits. What it
//! says beside a row, -31 and +31 of the balance among it, tells what values mean and bounds none.

use crate::answers::{Outcome, Refusal, WRONG_LENGTH};
use crate::rows::{bits, plain, row, signed, Fields, Row};

/// The number of packed bytes in a split.
pub const SPLIT_LENGTH: usize = 18;

/// A split's packed bytes.
pub(crate) type Split = [u8; SPLIT_LENGTH];

/// All 18 rows, each at the index of its place.
pub static ROWS: [Row; SPLIT_LENGTH] = LISTING;

const LISTING: [Row; SPLIT_LENGTH] = [
    plain(0, bits(6), "Split Name"),
    plain(1, bits(6), "Split Name"),
    plain(2, bits(6), "Split Name"),
    plain(3, bits(6), "Split Name"),
    plain(4, bits(6), "Split Name"),
    plain(5, bits(6), "Split Name"),
    plain(6, bits(6), "Not Used"),
    plain(7, bits(6), "Not Used"),
    plain(8, bits(7), "Lower Patch Number"),
    plain(9, bits(7), "Upper Patch Number"),
    row(10, 0, bits(7), "Left Zone Limit"),
    row(11, 1, signed(6), "Left Zone Transpose"),
    row(12, 2, bits(1), "Left Zone MIDI Out Enable"),
    row(13, 3, bits(7), "Right Zone Limit"),
    row(14, 4, signed(6), "Right Zone Transpose"),
    row(15, 5, bits(1), "Right Zone MIDI Out Enable"),
    row(16, 6, signed(6), "Left/Right Balance"),
    row(17, 7, bits(2), "Voice Configuration"),
];

static FIELDS: Fields<SPLIT_LENGTH> = Fields::of(&LISTING);

/// Tests a split: 7, then 11 with the lowest place and its value.
pub fn test_split(split: &[u8]) -> Outcome {
    sized(split).and_then(test).map(|()| 0).into()
}

/// All bytes that are out of range at a byte place of a split, rising; none for a place that it
/// lacks.
#[must_use]
pub fn outside_split(place: u8) -> Vec<u8> {
    FIELDS.outside(place)
}

/// A lent split is 18 bytes long, else 7.
pub(crate) fn sized(split: &[u8]) -> Result<&Split, Refusal> {
    split.try_into().map_err(|_| Refusal::plain(WRONG_LENGTH))
}

/// 11 with the lowest place and its value. A split has no buses, so 12 is never given for it.
#[inline]
pub(crate) fn test(split: &Split) -> Result<(), Refusal> {
    FIELDS.test(split)
}

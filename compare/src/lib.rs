//! The library's functions as slices, for the comparison and the benchmark.
//!
//! The declarations are the very file that the Rust face uses, so that what is compared here is
//! what its callers get.

pub mod clock;
#[path = "../../rust/src/ffi.rs"]
pub mod ffi;

/// The second program's report as it stands in the room that is lent for reports.
#[must_use]
pub fn flat(report: reference::Report) -> ffi::Flat {
    let reference::Report {
        start,
        end,
        answer,
        detail,
        value,
        noise,
    } = report;
    [start, end, answer.into(), detail, word(value), noise]
}

/// A value among numbers that have no sign, as C converts it.
#[must_use]
pub const fn word(value: i16) -> usize {
    value as usize
}

//! Oberheim Matrix-1000 and Matrix-6R system exclusive messages: reading, testing, editing, writing
//! and listing; a model of a unit; and the stored file of a unit.
//!
//! An independent second program, written from the papers only. It makes dumps and the answers
//! expected for them, against which the register's library is compared byte for byte.
//!
//! ```
//! let input = [0x41, 0xF0, 0xF7, 0xF0, 0x10, 0x06, 0x06, 0x15, 0x7F, 0xF7, 0xF0];
//! let text = "\
//! start end answer detail value rt
//! 1 3 4 0 0 0
//! 3 10 0 6 0 0
//! 10 11 2 0 0 0
//! messages 3
//! ";
//! assert_eq!(reference::listing(&input), text.as_bytes());
//! ```

#![deny(missing_docs)]
#![forbid(unsafe_code)]

pub mod answers;
mod cable;
mod desk;
mod edits;
mod fields;
mod frames;
pub mod kinds;
mod listing;
mod names;
pub mod nibbles;
mod operations;
mod patch;
mod plans;
mod reading;
mod records;
mod rows;
pub mod splits;
mod stored;
pub mod streams;
pub mod table;
mod units;
mod writing;

pub use answers::{
    BankOutcome, Outcome, PlacedOutcome, RangeOutcome, Reading, Report, ValueOutcome,
};
pub use cable::{CableReader, Fed, Open, LONGEST_STREAM};
pub use desk::{plan_files, stored_file};
pub use edits::{apply_bus_edit, apply_edit, extend};
pub use fields::{range_of, value_of};
pub use frames::is_real_time;
pub use listing::{listing, LONGEST_INPUT};
pub use names::{set_name, show_name, NAME_LENGTH};
pub use patch::test_patch;
pub use plans::{check_plan, plan, LONGEST_PLAN};
pub use reading::{read, reports, walk, Reports};
pub use splits::{outside_split, test_split, SPLIT_LENGTH};
pub use stored::{from_stored, to_stored, LONGEST_DUMPS, LONGEST_STORED};
pub use table::{outside, parameter_of, place_of, PATCH_LENGTH};
pub use units::{feed_chain, Step, Unit};
pub use writing::{
    write_bank, write_bus_edit, write_edit, write_edit_buffer, write_group_mode, write_master,
    write_patch, write_request_data, write_set_bank, write_split, write_store_edit_buffer,
    write_unlock_bank, BANK_PATCHES,
};

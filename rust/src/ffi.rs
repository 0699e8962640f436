//! The library's functions behind safe ones, and its structs. All unsafe code of the package is here.
//!
//! The library takes a slice as a pointer and a length. Each call below is sound for the same three
//! reasons. A pointer and its length are those of one Rust slice, so the pointer is aligned and not
//! null, and as many elements are there for reading; what a slice is lent for (`&` or `&mut`) is
//! what the library does with it. A slice that the library may write is `&mut`, so none of the other
//! slices of the call overlaps it. And the library keeps no pointer after it returns, asks nothing
//! else of its arguments, and is proved to stay inside the slices for all of them.

/// What a call came to.
#[repr(C)]
#[derive(Clone, Copy, Debug, PartialEq, Eq)]
pub struct Outcome {
    /// One of the register's numbers.
    pub answer: u8,
    /// The value that is out of range with answer 11, with its sign where the field has one, else 0.
    pub value: i16,
    /// What the register names for that number, else 0.
    pub detail: usize,
}

/// What is said of a message.
#[repr(C)]
#[derive(Clone, Copy, Debug, PartialEq, Eq)]
pub struct Report {
    /// The place of its F0H.
    pub start: usize,
    /// The place behind it.
    pub end: usize,
    /// Done with the opcode as detail, or the refusal.
    pub outcome: Outcome,
    /// How many bytes between the two places are real time.
    pub noise: usize,
}

/// The same with the bytes that come with the message.
#[repr(C)]
#[derive(Clone, Copy, Debug, PartialEq, Eq)]
pub struct Reading {
    /// What is said of it.
    pub report: Report,
    /// The number of a patch or a split, or the bytes of an edit or an operation; zero elsewhere.
    pub bytes: [u8; 4],
}

/// What a unit keeps of the operations that it is sent.
#[repr(C)]
#[derive(Clone, Copy, Debug, PartialEq, Eq, Hash, Default)]
pub struct Unit {
    /// Its bank.
    pub bank: u8,
    /// Whether the bank is locked.
    pub locked: bool,
    /// Whether group mode is on.
    pub grouped: bool,
    /// Its number in the group, which counts while group mode is on.
    pub number: u8,
}

/// What a message does to a unit.
#[repr(C)]
#[derive(Clone, Copy, Debug, PartialEq, Eq)]
pub struct Step {
    /// What is said of the message.
    pub report: Report,
    /// The unit after it.
    pub unit: Unit,
    /// Whether it is a store message that is meant for this unit.
    pub meant: bool,
    /// How many bytes are sent on: 0 or 7.
    pub count: u8,
    /// The message that is sent on, else zeros.
    pub sent: [u8; 7],
}

/// What writing a bank came to.
#[repr(C)]
#[derive(Clone, Copy, Debug, PartialEq, Eq)]
pub struct BankOutcome {
    /// What the call came to.
    pub outcome: Outcome,
    /// The number of the lowest bad patch with answers 11 and 12, else 0.
    pub place: usize,
}

/// The range of a parameter.
#[repr(C)]
#[derive(Clone, Copy, Debug, PartialEq, Eq)]
pub struct Range {
    /// What the call came to.
    pub outcome: Outcome,
    /// The least value, 0 when refused.
    pub least: i16,
    /// The greatest value, 0 when refused.
    pub greatest: i16,
}

/// What a parameter has in a patch.
#[repr(C)]
#[derive(Clone, Copy, Debug, PartialEq, Eq)]
pub struct Held {
    /// What the call came to.
    pub outcome: Outcome,
    /// The value with its sign, 0 when refused.
    pub value: i16,
}

/// What listing reports came to.
#[repr(C)]
#[derive(Clone, Copy, Debug, PartialEq, Eq)]
pub struct Listed {
    /// How many reports were made.
    pub count: usize,
    /// The place to go on from.
    pub next: usize,
}

/// Room for the longest message.
pub const CABLE_ROOM: usize = 351;

/// The record of a reader that is fed what has arrived so far.
#[repr(C)]
#[derive(Clone, Copy, Debug, PartialEq, Eq)]
pub struct Cable {
    /// Inside a message its bytes behind F0H so far, real time dropped, as many as fit; else a
    /// dump's packed bytes. Zero behind them.
    pub bytes: [u8; CABLE_ROOM],
    /// Whether a message is open.
    pub inside: bool,
    /// Whether the end was declared.
    pub over: bool,
    /// How many bytes stand in the room.
    pub count: usize,
    /// The place of the F0H of the message that is open, else 0.
    pub start: usize,
    /// How much real time stood in it so far, else 0.
    pub noise: usize,
    /// How many bytes were taken so far.
    pub taken: usize,
}

/// What a call of a reader tells.
#[repr(C)]
#[derive(Clone, Copy, Debug, PartialEq, Eq)]
pub struct Fed {
    /// The message that ended: all zero where none did; 1 or 21 where the call says so.
    pub reading: Reading,
    /// How many bytes the call took.
    pub taken: usize,
    /// Whether a message ended with it.
    pub ended: bool,
}

// As the header for C has them.
const _: () = assert!(size_of::<Cable>() == 392 && align_of::<Cable>() == 8);
const _: () = assert!(size_of::<Fed>() == 64);
const _: () = assert!(size_of::<Unit>() == 4 && size_of::<Step>() == 56);

/// The most reports that the library makes in a call.
pub const A_CALL: usize = 8;

/// A report as it stands in the room that is lent for reports: start, end, answer, detail, value,
/// noise.
pub type Flat = [usize; 6];

/// Room for a report.
pub const EMPTY: Flat = [0; 6];

impl From<Flat> for Report {
    #[inline]
    fn from([start, end, answer, detail, value, noise]: Flat) -> Self {
        let answer = u8::try_from(answer).expect("an answer is a byte");
        let value = i16::try_from(value.cast_signed()).expect("a value has sixteen bits");
        Self {
            start,
            end,
            outcome: Outcome {
                answer,
                value,
                detail,
            },
            noise,
        }
    }
}

/// What the table gives where a parameter has no place, or a place no parameter.
pub const NONE: u8 = 255;

mod raw {
    use super::{
        BankOutcome, Cable, Fed, Held, Listed, Outcome, Range, Reading, Report, Step, Unit,
    };

    unsafe extern "C" {
        pub unsafe fn matrix_walk(s: *const u8, s_len: usize, place: usize) -> Report;
        pub unsafe fn matrix_read(
            s: *const u8,
            s_len: usize,
            place: usize,
            buffer: *mut u8,
            buffer_len: usize,
        ) -> Reading;
        pub unsafe fn matrix_reports(
            s: *const u8,
            s_len: usize,
            place: usize,
            room: *mut usize,
            room_len: usize,
        ) -> Listed;
        pub safe fn matrix_cable_fresh() -> Cable;
        pub unsafe fn matrix_cable_feed(
            state: *mut Cable,
            input: *const u8,
            input_len: usize,
        ) -> Fed;
        pub safe fn matrix_cable_end(state: &mut Cable) -> Fed;
        pub unsafe fn matrix_test_patch(p: *const u8, p_len: usize) -> Outcome;
        pub unsafe fn matrix_test_split(p: *const u8, p_len: usize) -> Outcome;
        pub safe fn matrix_place_of(parameter: u8) -> u8;
        pub safe fn matrix_parameter_of(place: u8) -> u8;
        pub safe fn matrix_range_of(parameter: u8) -> Range;
        pub unsafe fn matrix_value_of(p: *const u8, p_len: usize, parameter: u8) -> Held;
        pub unsafe fn matrix_set_name(
            p: *mut u8,
            p_len: usize,
            text: *const u8,
            text_len: usize,
        ) -> Outcome;
        pub unsafe fn matrix_show_name(
            p: *const u8,
            p_len: usize,
            out: *mut u8,
            out_len: usize,
        ) -> Outcome;
        pub unsafe fn matrix_apply_edit(
            p: *mut u8,
            p_len: usize,
            parameter: u8,
            value: u8,
        ) -> Outcome;
        pub unsafe fn matrix_apply_bus_edit(
            p: *mut u8,
            p_len: usize,
            bus: u8,
            source: u8,
            amount: u8,
            destination: u8,
        ) -> Outcome;
        pub unsafe fn matrix_write_patch(
            number: u8,
            p: *const u8,
            p_len: usize,
            out: *mut u8,
            out_len: usize,
        ) -> Outcome;
        pub unsafe fn matrix_write_split(
            number: u8,
            p: *const u8,
            p_len: usize,
            out: *mut u8,
            out_len: usize,
        ) -> Outcome;
        pub unsafe fn matrix_write_edit_buffer(
            p: *const u8,
            p_len: usize,
            out: *mut u8,
            out_len: usize,
        ) -> Outcome;
        pub unsafe fn matrix_write_master(
            m: *const u8,
            m_len: usize,
            out: *mut u8,
            out_len: usize,
        ) -> Outcome;
        pub unsafe fn matrix_write_edit(
            parameter: u8,
            value: u8,
            out: *mut u8,
            out_len: usize,
        ) -> Outcome;
        pub unsafe fn matrix_write_bus_edit(
            bus: u8,
            source: u8,
            amount: u8,
            destination: u8,
            out: *mut u8,
            out_len: usize,
        ) -> Outcome;
        pub unsafe fn matrix_write_request_data(
            kind: u8,
            number: u8,
            out: *mut u8,
            out_len: usize,
        ) -> Outcome;
        pub unsafe fn matrix_write_group_mode(
            total: u8,
            id: u8,
            out: *mut u8,
            out_len: usize,
        ) -> Outcome;
        pub unsafe fn matrix_write_set_bank(bank: u8, out: *mut u8, out_len: usize) -> Outcome;
        pub unsafe fn matrix_write_unlock_bank(out: *mut u8, out_len: usize) -> Outcome;
        pub unsafe fn matrix_write_store_edit_buffer(
            number: u8,
            bank: u8,
            id: u8,
            out: *mut u8,
            out_len: usize,
        ) -> Outcome;
        pub unsafe fn matrix_unit_step(
            unit: Unit,
            s: *const u8,
            s_len: usize,
            place: usize,
        ) -> Step;
        pub safe fn matrix_unit_meant(unit: Unit, id: u8) -> bool;
        pub unsafe fn matrix_write_bank(
            ps: *const u8,
            ps_len: usize,
            out: *mut u8,
            out_len: usize,
        ) -> BankOutcome;
        pub unsafe fn matrix_plan(
            a: *const u8,
            a_len: usize,
            b: *const u8,
            b_len: usize,
            out: *mut u8,
            out_len: usize,
        ) -> Outcome;
        pub unsafe fn matrix_check_plan(
            a: *const u8,
            a_len: usize,
            b: *const u8,
            b_len: usize,
            list: *const u8,
            list_len: usize,
        ) -> Outcome;
    }
}

/// The first message that starts at `place` or later.
#[inline]
pub fn walk(s: &[u8], place: usize) -> Report {
    // SAFETY: one slice with its own length, not written.
    unsafe { raw::matrix_walk(s.as_ptr(), s.len(), place) }
}

/// The same with a dump's packed bytes into the buffer.
#[inline]
pub fn read(s: &[u8], place: usize, buffer: &mut [u8]) -> Reading {
    // SAFETY: two slices with their own lengths; `buffer`, which is written, is `&mut`.
    unsafe {
        raw::matrix_read(
            s.as_ptr(),
            s.len(),
            place,
            buffer.as_mut_ptr(),
            buffer.len(),
        )
    }
}

/// A reader at a fresh start.
#[inline]
pub fn cable_fresh() -> Cable {
    raw::matrix_cable_fresh()
}

/// Feeds a reader, whose record is updated.
#[inline]
pub fn cable_feed(state: &mut Cable, input: &[u8]) -> Fed {
    // SAFETY: a slice with its own length; `state`, which is written, is `&mut`.
    unsafe { raw::matrix_cable_feed(state, input.as_ptr(), input.len()) }
}

/// Declares the end to a reader, whose record is updated.
#[inline]
pub fn cable_end(state: &mut Cable) -> Fed {
    raw::matrix_cable_end(state)
}

/// The reports from a place on into the room, at most [`A_CALL`].
#[inline]
pub fn reports(s: &[u8], place: usize, room: &mut [usize]) -> Listed {
    // SAFETY: two slices with their own lengths; `room`, which is written, is `&mut`.
    unsafe { raw::matrix_reports(s.as_ptr(), s.len(), place, room.as_mut_ptr(), room.len()) }
}

/// Tests a patch.
#[inline]
pub fn test_patch(p: &[u8]) -> Outcome {
    // SAFETY: one slice with its own length, not written.
    unsafe { raw::matrix_test_patch(p.as_ptr(), p.len()) }
}

/// Tests a split.
#[inline]
pub fn test_split(p: &[u8]) -> Outcome {
    // SAFETY: one slice with its own length, not written.
    unsafe { raw::matrix_test_split(p.as_ptr(), p.len()) }
}

/// The byte place of a parameter, or [`NONE`].
#[inline]
pub fn place_of(parameter: u8) -> u8 {
    raw::matrix_place_of(parameter)
}

/// The parameter at a byte place, or [`NONE`].
#[inline]
pub fn parameter_of(place: u8) -> u8 {
    raw::matrix_parameter_of(place)
}

/// The range of a parameter.
#[inline]
pub fn range_of(parameter: u8) -> Range {
    raw::matrix_range_of(parameter)
}

/// What a parameter has in a patch.
#[inline]
pub fn value_of(p: &[u8], parameter: u8) -> Held {
    // SAFETY: one slice with its own length, not written.
    unsafe { raw::matrix_value_of(p.as_ptr(), p.len(), parameter) }
}

/// Sets a patch's name.
#[inline]
pub fn set_name(p: &mut [u8], text: &[u8]) -> Outcome {
    // SAFETY: two slices with their own lengths; `p`, which is written, is `&mut`.
    unsafe { raw::matrix_set_name(p.as_mut_ptr(), p.len(), text.as_ptr(), text.len()) }
}

/// A patch's name as text.
#[inline]
pub fn show_name(p: &[u8], out: &mut [u8]) -> Outcome {
    // SAFETY: two slices with their own lengths; `out`, which is written, is `&mut`.
    unsafe { raw::matrix_show_name(p.as_ptr(), p.len(), out.as_mut_ptr(), out.len()) }
}

/// Applies a remote edit.
#[inline]
pub fn apply_edit(p: &mut [u8], parameter: u8, value: u8) -> Outcome {
    // SAFETY: one slice with its own length; `p`, which is written, is `&mut`.
    unsafe { raw::matrix_apply_edit(p.as_mut_ptr(), p.len(), parameter, value) }
}

/// Applies a matrix modulation edit, its bytes in the message's order.
#[inline]
pub fn apply_bus_edit(p: &mut [u8], edit: [u8; 4]) -> Outcome {
    let [bus, source, amount, destination] = edit;
    // SAFETY: one slice with its own length; `p`, which is written, is `&mut`.
    unsafe { raw::matrix_apply_bus_edit(p.as_mut_ptr(), p.len(), bus, source, amount, destination) }
}

/// Writes a single patch (01H).
#[inline]
pub fn write_patch(number: u8, p: &[u8], out: &mut [u8]) -> Outcome {
    // SAFETY: two slices with their own lengths; `out`, which is written, is `&mut`.
    unsafe { raw::matrix_write_patch(number, p.as_ptr(), p.len(), out.as_mut_ptr(), out.len()) }
}

/// Writes a split (02H).
#[inline]
pub fn write_split(number: u8, p: &[u8], out: &mut [u8]) -> Outcome {
    // SAFETY: two slices with their own lengths; `out`, which is written, is `&mut`.
    unsafe { raw::matrix_write_split(number, p.as_ptr(), p.len(), out.as_mut_ptr(), out.len()) }
}

/// Writes a patch to the edit buffer (0DH).
#[inline]
pub fn write_edit_buffer(p: &[u8], out: &mut [u8]) -> Outcome {
    // SAFETY: two slices with their own lengths; `out`, which is written, is `&mut`.
    unsafe { raw::matrix_write_edit_buffer(p.as_ptr(), p.len(), out.as_mut_ptr(), out.len()) }
}

/// Writes a master (03H).
#[inline]
pub fn write_master(m: &[u8], out: &mut [u8]) -> Outcome {
    // SAFETY: two slices with their own lengths; `out`, which is written, is `&mut`.
    unsafe { raw::matrix_write_master(m.as_ptr(), m.len(), out.as_mut_ptr(), out.len()) }
}

/// Writes a remote edit (06H).
#[inline]
pub fn write_edit(parameter: u8, value: u8, out: &mut [u8]) -> Outcome {
    // SAFETY: one slice with its own length; `out`, which is written, is `&mut`.
    unsafe { raw::matrix_write_edit(parameter, value, out.as_mut_ptr(), out.len()) }
}

/// Writes a matrix modulation edit (0BH), its bytes in the message's order.
#[inline]
pub fn write_bus_edit(edit: [u8; 4], out: &mut [u8]) -> Outcome {
    let [bus, source, amount, destination] = edit;
    // SAFETY: one slice with its own length; `out`, which is written, is `&mut`.
    unsafe {
        raw::matrix_write_bus_edit(
            bus,
            source,
            amount,
            destination,
            out.as_mut_ptr(),
            out.len(),
        )
    }
}

/// Writes a request for data (04H), its type first.
#[inline]
pub fn write_request_data(kind: u8, number: u8, out: &mut [u8]) -> Outcome {
    // SAFETY: one slice with its own length; `out`, which is written, is `&mut`.
    unsafe { raw::matrix_write_request_data(kind, number, out.as_mut_ptr(), out.len()) }
}

/// Writes group mode (07H).
#[inline]
pub fn write_group_mode(total: u8, id: u8, out: &mut [u8]) -> Outcome {
    // SAFETY: one slice with its own length; `out`, which is written, is `&mut`.
    unsafe { raw::matrix_write_group_mode(total, id, out.as_mut_ptr(), out.len()) }
}

/// Writes set bank (0AH).
#[inline]
pub fn write_set_bank(bank: u8, out: &mut [u8]) -> Outcome {
    // SAFETY: one slice with its own length; `out`, which is written, is `&mut`.
    unsafe { raw::matrix_write_set_bank(bank, out.as_mut_ptr(), out.len()) }
}

/// Writes unlock bank (0CH).
#[inline]
pub fn write_unlock_bank(out: &mut [u8]) -> Outcome {
    // SAFETY: one slice with its own length; `out`, which is written, is `&mut`.
    unsafe { raw::matrix_write_unlock_bank(out.as_mut_ptr(), out.len()) }
}

/// Writes store edit buffer (0EH).
#[inline]
pub fn write_store_edit_buffer(number: u8, bank: u8, id: u8, out: &mut [u8]) -> Outcome {
    // SAFETY: one slice with its own length; `out`, which is written, is `&mut`.
    unsafe { raw::matrix_write_store_edit_buffer(number, bank, id, out.as_mut_ptr(), out.len()) }
}

/// What the first message that starts at `place` or later does to a unit.
#[inline]
pub fn unit_step(unit: Unit, s: &[u8], place: usize) -> Step {
    // SAFETY: one slice with its own length, not written.
    unsafe { raw::matrix_unit_step(unit, s.as_ptr(), s.len(), place) }
}

/// Whether a store message with that ID is meant for a unit.
#[inline]
pub fn unit_meant(unit: Unit, id: u8) -> bool {
    raw::matrix_unit_meant(unit, id)
}

/// Writes a bank.
#[inline]
pub fn write_bank(ps: &[u8], out: &mut [u8]) -> BankOutcome {
    // SAFETY: two slices with their own lengths; `out`, which is written, is `&mut`.
    unsafe { raw::matrix_write_bank(ps.as_ptr(), ps.len(), out.as_mut_ptr(), out.len()) }
}

/// Writes the shortest list of edits that turns patch `a` into patch `b`.
#[inline]
pub fn plan(a: &[u8], b: &[u8], out: &mut [u8]) -> Outcome {
    // SAFETY: three slices with their own lengths; `out`, which is written, is `&mut`.
    unsafe {
        raw::matrix_plan(
            a.as_ptr(),
            a.len(),
            b.as_ptr(),
            b.len(),
            out.as_mut_ptr(),
            out.len(),
        )
    }
}

/// Checks a list of edits that is to turn patch `a` into patch `b`.
#[inline]
pub fn check_plan(a: &[u8], b: &[u8], list: &[u8]) -> Outcome {
    // SAFETY: three slices with their own lengths, not written.
    unsafe {
        raw::matrix_check_plan(
            a.as_ptr(),
            a.len(),
            b.as_ptr(),
            b.len(),
            list.as_ptr(),
            list.len(),
        )
    }
}

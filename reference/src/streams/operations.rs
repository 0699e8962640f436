//! Operations as pieces of streams: accepted, refused, of wrong lengths, among real time, and as
//! they go from unit to unit.

use super::pieces::{data, lose_or_add, message, noisy, Piece};
use super::{inputs, Random};
use crate::frames::END;
use crate::kinds::{length, opcode, ANY_UNIT, FEWEST_UNITS, LAST_ID, MOST_UNITS};

/// The kinds without data and sum: opcode, length.
pub(super) const SHORT: [(u8, usize); 7] = [
    (opcode::REQUEST_DATA, length::REQUEST_DATA),
    (opcode::REMOTE_EDIT, length::REMOTE_EDIT),
    (opcode::GROUP_MODE, length::GROUP_MODE),
    (opcode::SET_BANK, length::SET_BANK),
    (opcode::BUS_EDIT, length::BUS_EDIT),
    (opcode::UNLOCK_BANK, length::UNLOCK_BANK),
    (opcode::STORE_EDIT_BUFFER, length::STORE_EDIT_BUFFER),
];

/// The greatest byte that a message carries.
pub(super) const MOST_SENT: u8 = 0x7F;

pub(super) fn request_data(random: &mut Random, out: &mut Vec<u8>) {
    message(opcode::REQUEST_DATA, &inputs::good_request(random), out);
}

pub(super) fn group_mode(random: &mut Random, out: &mut Vec<u8>) {
    message(opcode::GROUP_MODE, &inputs::good_group(random), out);
}

pub(super) fn set_bank(random: &mut Random, out: &mut Vec<u8>) {
    message(opcode::SET_BANK, &inputs::good_bank_number(random), out);
}

pub(super) fn unlock_bank(_: &mut Random, out: &mut Vec<u8>) {
    message(opcode::UNLOCK_BANK, &[], out);
}

pub(super) fn store_edit_buffer(random: &mut Random, out: &mut Vec<u8>) {
    message(opcode::STORE_EDIT_BUFFER, &inputs::good_store(random), out);
}

/// An accepted operation of any kind.
pub(super) fn operation(random: &mut Random, out: &mut Vec<u8>) {
    const KINDS: [Piece; 5] = [
        request_data,
        group_mode,
        set_bank,
        unlock_bank,
        store_edit_buffer,
    ];
    random.pick(&KINDS)(random, out);
}

/// An operation with a value that isn't allowed, or with two.
pub(super) fn bad_operation(random: &mut Random, out: &mut Vec<u8>) {
    match random.below(4) {
        0 => {
            let request = inputs::bad_request(random, MOST_SENT);
            message(opcode::REQUEST_DATA, &request, out);
        }
        1 => {
            let group = inputs::bad_group(random, MOST_SENT);
            message(opcode::GROUP_MODE, &group, out);
        }
        2 => {
            let bank = inputs::bad_bank_number(random, MOST_SENT);
            message(opcode::SET_BANK, &bank, out);
        }
        _ => {
            let store = inputs::bad_store(random, MOST_SENT);
            message(opcode::STORE_EDIT_BUFFER, &store, out);
        }
    }
}

/// An operation of a wrong length: with a byte lost or added, with as many bytes as a kind of
/// another length has, or with any.
pub(super) fn operation_of_wrong_length(random: &mut Random, out: &mut Vec<u8>) {
    let start = out.len();
    operation(random, out);
    let right = out.len() - start;
    match random.below(4) {
        0 => lose_or_add(random, start, out),
        1 => {
            let at = random.within(start + 4..=out.len() - 1);
            out.insert(at, random.byte_within(0..=MOST_SENT));
        }
        2 => {
            let (_, length) = pick_such(random, &SHORT, |&(_, length)| length != right);
            out.pop();
            out.resize(start + length - 1, random.byte_within(0..=MOST_SENT));
            out.push(END);
        }
        _ => {
            out.truncate(start + 4);
            data(random, 20, out);
            // The right length is none of them.
            if out.len() + 1 - start == right {
                out.push(0);
            }
            out.push(END);
        }
    }
}

/// One of the items that are such; there is at least one.
fn pick_such<T: Copy>(random: &mut Random, items: &[T], such: impl Fn(&T) -> bool) -> T {
    loop {
        let item = random.pick(items);
        if such(&item) {
            return item;
        }
    }
}

/// An operation accepted, with a value not allowed, or of a wrong length.
pub(super) fn any_operation(random: &mut Random, out: &mut Vec<u8>) {
    const ANY: [Piece; 5] = [
        operation,
        operation,
        operation,
        bad_operation,
        operation_of_wrong_length,
    ];
    random.pick(&ANY)(random, out);
}

/// Operations one after another, as for a unit that goes out.
pub(super) fn operations(random: &mut Random, out: &mut Vec<u8>) {
    for _ in 0..random.within(2..=8) {
        any_operation(random, out);
    }
}

/// Operations with real time inside, complete, interrupted or left open.
pub(super) fn noisy_operations(random: &mut Random, out: &mut Vec<u8>) {
    for _ in 0..random.within(1..=4) {
        let mut message = Vec::new();
        any_operation(random, &mut message);
        let inside = &message[1..message.len() - 1];
        noisy(random, inside, inputs::with_real_time, out);
    }
}

/// A group message as it goes from unit to unit, at times past the last ID; behind it a store
/// message for each unit and for all.
pub(super) fn group_chain(random: &mut Random, out: &mut Vec<u8>) {
    let total = random.byte_within(FEWEST_UNITS..=MOST_UNITS);
    let last = random.pick(&[total - 1, total - 1, LAST_ID, LAST_ID + 1]);
    for id in 0..=last {
        message(opcode::GROUP_MODE, &[total, id], out);
    }
    for id in (0..total).chain([ANY_UNIT]) {
        let [number, bank, _] = inputs::good_store(random);
        message(opcode::STORE_EDIT_BUFFER, &[number, bank, id], out);
    }
}

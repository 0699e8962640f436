//! Writing messages and banks into a lent output.

use crate::answers::{
    Outcome, Placed, PlacedOutcome, Refusal, NOT_ALLOWED, TOO_SHORT, WRONG_LENGTH,
};
use crate::edits::{BusChange, Change};
use crate::frames::{END, START};
use crate::kinds::{
    length, opcode, ENVELOPE, LAST_NUMBER, LAST_SPLIT, MASTER_LENGTH, MATRIX, OBERHEIM, VERSION,
};
use crate::nibbles::{sum, unpack};
use crate::operations::Operation;
use crate::patch::{sized, test, tested, Patch};
use crate::splits::{self, Split};
use crate::table::PATCH_LENGTH;

/// The greatest number of patches in a bank.
pub const BANK_PATCHES: usize = 100;

/// Writes a single patch (01H): 7, 8, 11, 12, 13.
pub fn write_patch(number: u8, patch: &[u8], out: &mut [u8]) -> Outcome {
    numbered(number, patch)
        .and_then(|patch| put_dump(opcode::SINGLE_PATCH, number, patch, out))
        .into()
}

/// Writes a split (02H): 7, 8, 11, 13.
pub fn write_split(number: u8, split: &[u8], out: &mut [u8]) -> Outcome {
    numbered_split(number, split)
        .and_then(|split| put_dump(opcode::SPLIT, number, split, out))
        .into()
}

/// Writes a patch to the edit buffer (0DH): 7, 11, 12, 13.
pub fn write_edit_buffer(patch: &[u8], out: &mut [u8]) -> Outcome {
    tested(patch)
        .and_then(|patch| put_dump(opcode::EDIT_BUFFER, 0, patch, out))
        .into()
}

/// Writes a master of 172 bytes (03H, version 3): 7, 13.
pub fn write_master(master: &[u8], out: &mut [u8]) -> Outcome {
    <&[u8; MASTER_LENGTH]>::try_from(master)
        .map_err(|_| Refusal::plain(WRONG_LENGTH))
        .and_then(|master| put_dump(opcode::MASTER, VERSION, master, out))
        .into()
}

/// Writes a remote edit (06H): 8, 11, 13.
pub fn write_edit(parameter: u8, value: u8, out: &mut [u8]) -> Outcome {
    Change::new(parameter, value)
        .and_then(|_| put_message(opcode::REMOTE_EDIT, &[parameter, value], out))
        .into()
}

/// Writes a matrix modulation edit (0BH): 8, 11, 12, 13.
pub fn write_bus_edit(bus: u8, source: u8, amount: u8, destination: u8, out: &mut [u8]) -> Outcome {
    let body = [bus, source, amount, destination];
    BusChange::new(bus, source, amount, destination)
        .and_then(|_| put_message(opcode::BUS_EDIT, &body, out))
        .into()
}

/// Writes a request for data (04H), its type first: 8, 13.
pub fn write_request_data(wanted: u8, number: u8, out: &mut [u8]) -> Outcome {
    put_operation(Operation::RequestData { wanted, number }, out).into()
}

/// Writes a group message (07H): 8, 13.
pub fn write_group_mode(total: u8, id: u8, out: &mut [u8]) -> Outcome {
    put_operation(Operation::GroupMode { total, id }, out).into()
}

/// Writes a bank message (0AH): 8, 13.
pub fn write_set_bank(bank: u8, out: &mut [u8]) -> Outcome {
    put_operation(Operation::SetBank { bank }, out).into()
}

/// Writes an unlock message (0CH): 13.
pub fn write_unlock_bank(out: &mut [u8]) -> Outcome {
    put_operation(Operation::UnlockBank, out).into()
}

/// Writes a store message (0EH): 8, 13.
pub fn write_store_edit_buffer(number: u8, bank: u8, id: u8, out: &mut [u8]) -> Outcome {
    put_operation(Operation::StoreEditBuffer { number, bank, id }, out).into()
}

/// Writes a bank: 0 to 100 patches end to end, as dumps numbered from 0.
///
/// 7 for a length not a multiple of 134 or above 13,400; the lowest bad patch's 11 or 12, with its
/// number as place; then 13.
pub fn write_bank(patches: &[u8], out: &mut [u8]) -> PlacedOutcome {
    bank(patches, out).into()
}

fn bank(patches: &[u8], out: &mut [u8]) -> Result<usize, Placed> {
    let (patches, rest) = patches.as_chunks::<PATCH_LENGTH>();
    if !rest.is_empty() || patches.len() > BANK_PATCHES {
        return Err(Refusal::plain(WRONG_LENGTH).into());
    }
    // All are tested before the first is written.
    for (number, patch) in patches.iter().enumerate() {
        test(patch).map_err(|refusal| refusal.placed(number))?;
    }
    let length = length::SINGLE_PATCH * patches.len();
    let out = room(out, length)?;
    let dumps = out.chunks_exact_mut(length::SINGLE_PATCH);
    for ((number, patch), dump) in (0..).zip(patches).zip(dumps) {
        fill_dump(opcode::SINGLE_PATCH, number, patch, dump);
    }
    Ok(length)
}

/// A patch with its number: 7, 8, 11, 12.
pub(crate) fn numbered(number: u8, patch: &[u8]) -> Result<&Patch, Refusal> {
    let patch = sized(patch)?;
    if number > LAST_NUMBER {
        return Err(Refusal::plain(NOT_ALLOWED));
    }
    test(patch)?;
    Ok(patch)
}

/// A split with its number: 7, 8, 11.
fn numbered_split(number: u8, split: &[u8]) -> Result<&Split, Refusal> {
    let split = splits::sized(split)?;
    if number > LAST_SPLIT {
        return Err(Refusal::plain(NOT_ALLOWED));
    }
    splits::test(split)?;
    Ok(split)
}

/// The first `length` bytes of a lent output, else 13.
pub(crate) fn room(out: &mut [u8], length: usize) -> Result<&mut [u8], Refusal> {
    out.get_mut(..length).ok_or(Refusal::plain(TOO_SHORT))
}

/// Puts an operation into the output and gives its length: 8, 13.
fn put_operation(operation: Operation, out: &mut [u8]) -> Result<usize, Refusal> {
    let operation = operation.tested()?;
    let body = &operation.bytes()[..operation.length() - ENVELOPE];
    put_message(operation.opcode(), body, out)
}

/// Puts a message without data and sum into the output and gives its length.
pub(crate) fn put_message(opcode: u8, body: &[u8], out: &mut [u8]) -> Result<usize, Refusal> {
    let message = room(out, ENVELOPE + body.len())?;
    message[..4].copy_from_slice(&[START, OBERHEIM, MATRIX, opcode]);
    message[4..][..body.len()].copy_from_slice(body);
    message[4 + body.len()] = END;
    Ok(message.len())
}

/// Puts a dump into the output and gives its length.
fn put_dump(opcode: u8, second: u8, packed: &[u8], out: &mut [u8]) -> Result<usize, Refusal> {
    let dump = room(out, ENVELOPE + 2 * packed.len() + 2)?;
    fill_dump(opcode, second, packed, dump);
    Ok(dump.len())
}

/// Fills a dump: header, data, sum, end. The output is exactly as long as the dump.
pub(crate) fn fill_dump(opcode: u8, second: u8, packed: &[u8], dump: &mut [u8]) {
    let (head, rest) = dump.split_at_mut(5);
    let (data, tail) = rest.split_at_mut(2 * packed.len());
    head.copy_from_slice(&[START, OBERHEIM, MATRIX, opcode, second]);
    unpack(packed, data);
    tail.copy_from_slice(&[sum(packed), END]);
}

//! The record of a message, or the reason it has none.

use crate::answers::{
    Refusal, CUT, INTERRUPTED, NOT_ALLOWED, OTHER_DEVICE, OTHER_MANUFACTURER, OTHER_OPCODE,
    WIDE_DATA, WRONG_LENGTH, WRONG_SUM,
};
use crate::edits::{BusChange, Change};
use crate::frames::{is_real_time, Ending};
use crate::kinds::{
    length, opcode, ENVELOPE, LAST_NUMBER, LAST_SPLIT, MASTER_LENGTH, MATRIX, OBERHEIM, VERSION,
};
use crate::nibbles::{first_wide, pack, sum};
use crate::operations::Operation;
use crate::patch::{self, Patch};
use crate::splits::{self, Split, SPLIT_LENGTH};
use crate::table::PATCH_LENGTH;

/// What an accepted message holds.
pub(crate) enum Record {
    SinglePatch { number: u8, patch: Patch },
    Split { number: u8, split: Split },
    Master { master: [u8; MASTER_LENGTH] },
    RemoteEdit { bytes: [u8; 2] },
    BusEdit { bytes: [u8; 4] },
    EditBuffer { patch: Patch },
    Operation(Operation),
}

impl Record {
    /// Judges a message in the order of the table, from 2 on. One without noise has nothing to
    /// drop.
    #[inline]
    pub fn of(ending: Ending, noise: usize) -> Result<Self, Refusal> {
        match ending {
            Ending::Cut => Err(Refusal::plain(CUT)),
            Ending::Interrupted => Err(Refusal::plain(INTERRUPTED)),
            Ending::Complete(content) if noise == 0 => parse(content),
            Ending::Complete(content) => parse_less_real_time(content),
        }
    }

    pub const fn opcode(&self) -> u8 {
        match self {
            Self::SinglePatch { .. } => opcode::SINGLE_PATCH,
            Self::Split { .. } => opcode::SPLIT,
            Self::Master { .. } => opcode::MASTER,
            Self::RemoteEdit { .. } => opcode::REMOTE_EDIT,
            Self::BusEdit { .. } => opcode::BUS_EDIT,
            Self::EditBuffer { .. } => opcode::EDIT_BUFFER,
            Self::Operation(operation) => operation.opcode(),
        }
    }

    /// The number of a patch or a split, or the bytes of an edit or an operation, as received; zero
    /// where the message has none.
    pub const fn bytes(&self) -> [u8; 4] {
        match *self {
            Self::SinglePatch { number, .. } | Self::Split { number, .. } => [number, 0, 0, 0],
            Self::RemoteEdit {
                bytes: [parameter, value],
            } => [parameter, value, 0, 0],
            Self::BusEdit { bytes } => bytes,
            Self::Operation(operation) => operation.bytes(),
            Self::Master { .. } | Self::EditBuffer { .. } => [0; 4],
        }
    }

    /// A dump's packed bytes; none for an edit or an operation.
    pub const fn packed(&self) -> &[u8] {
        match self {
            Self::SinglePatch { patch, .. } | Self::EditBuffer { patch } => patch,
            Self::Split { split, .. } => split,
            Self::Master { master } => master,
            Self::RemoteEdit { .. } | Self::BusEdit { .. } | Self::Operation(_) => &[],
        }
    }

    /// The operation, if it is one.
    pub const fn operation(&self) -> Option<Operation> {
        match *self {
            Self::Operation(operation) => Some(operation),
            _ => None,
        }
    }
}

/// The most bytes between F0H and F7H that a message of the eleven kinds has, real time dropped.
const LONGEST: usize = length::MASTER - 2;

/// Real time is dropped from this many bytes at a time.
const BLOCK: usize = 8;

/// Drops real time first.
fn parse_less_real_time(content: &[u8]) -> Result<Record, Refusal> {
    // Of a message longer than any kind more is kept, which is enough to find its length wrong.
    let mut kept = [0; LONGEST + BLOCK];
    let length = drop_real_time(content, &mut kept);
    parse(&kept[..length])
}

/// Keeps the data bytes of a message until the room ends, and tells their number.
#[inline]
pub(crate) fn drop_real_time(content: &[u8], kept: &mut [u8]) -> usize {
    let (blocks, rest) = content.as_chunks();
    let mut length = 0;
    for (index, block) in blocks.iter().enumerate() {
        let Some(room) = kept[length..].first_chunk_mut() else {
            return length + fill(&content[BLOCK * index..], &mut kept[length..]);
        };
        if block.is_ascii() {
            *room = *block;
            length += BLOCK;
        } else {
            length += keep(block, room);
        }
    }
    let room = &mut kept[length..];
    length
        + match room.first_chunk_mut() {
            Some(room) => keep(rest, room),
            None => fill(rest, room),
        }
}

/// Keeps the data bytes of a block and tells their number. Every byte is put into the room, and the
/// next one over it if it is real time, so that there are no branches.
fn keep(block: &[u8], room: &mut [u8; BLOCK]) -> usize {
    let mut length = 0;
    for &byte in block {
        room[length] = byte;
        length += usize::from(!is_real_time(byte));
    }
    length
}

/// Keeps data bytes until the last of the room is filled, and tells their number.
fn fill(bytes: &[u8], room: &mut [u8]) -> usize {
    let data = bytes.iter().filter(|&&byte| !is_real_time(byte));
    let mut length = 0;
    for (room, &byte) in room.iter_mut().zip(data) {
        *room = byte;
        length += 1;
    }
    length
}

/// Judges the bytes between F0H and F7H, real time dropped.
#[inline]
pub(crate) fn parse(content: &[u8]) -> Result<Record, Refusal> {
    let content = content
        .strip_prefix(&[OBERHEIM])
        .ok_or(Refusal::plain(OTHER_MANUFACTURER))?;
    let content = content
        .strip_prefix(&[MATRIX])
        .ok_or(Refusal::plain(OTHER_DEVICE))?;
    let (&opcode, body) = content.split_first().ok_or(Refusal::plain(OTHER_OPCODE))?;
    match opcode {
        opcode::SINGLE_PATCH => single_patch(exact(body)?),
        opcode::SPLIT => split(exact(body)?),
        opcode::MASTER => master(exact(body)?),
        opcode::REMOTE_EDIT => remote_edit(*exact(body)?),
        opcode::BUS_EDIT => bus_edit(*exact(body)?),
        opcode::EDIT_BUFFER => edit_buffer(exact(body)?),
        opcode::REQUEST_DATA => request_data(*exact(body)?),
        opcode::GROUP_MODE => group_mode(*exact(body)?),
        opcode::SET_BANK => set_bank(*exact(body)?),
        opcode::UNLOCK_BANK => unlock_bank(*exact(body)?),
        opcode::STORE_EDIT_BUFFER => store_edit_buffer(*exact(body)?),
        _ => Err(Refusal::plain(OTHER_OPCODE)),
    }
}

/// A body of the length its kind has, else 7.
fn exact<const LENGTH: usize>(body: &[u8]) -> Result<&[u8; LENGTH], Refusal> {
    body.try_into().map_err(|_| Refusal::plain(WRONG_LENGTH))
}

fn single_patch(body: &[u8; length::SINGLE_PATCH - ENVELOPE]) -> Result<Record, Refusal> {
    let &[number, ref data @ .., sum] = body;
    allow(number <= LAST_NUMBER)?;
    let mut patch = [0; PATCH_LENGTH];
    pack_tested(data, sum, &mut patch)?;
    patch::test(&patch)?;
    Ok(Record::SinglePatch { number, patch })
}

fn split(body: &[u8; length::SPLIT - ENVELOPE]) -> Result<Record, Refusal> {
    let &[number, ref data @ .., sum] = body;
    allow(number <= LAST_SPLIT)?;
    let mut split = [0; SPLIT_LENGTH];
    pack_tested(data, sum, &mut split)?;
    splits::test(&split)?;
    Ok(Record::Split { number, split })
}

fn edit_buffer(body: &[u8; length::EDIT_BUFFER - ENVELOPE]) -> Result<Record, Refusal> {
    let &[zero, ref data @ .., sum] = body;
    allow(zero == 0)?;
    let mut patch = [0; PATCH_LENGTH];
    pack_tested(data, sum, &mut patch)?;
    patch::test(&patch)?;
    Ok(Record::EditBuffer { patch })
}

fn master(body: &[u8; length::MASTER - ENVELOPE]) -> Result<Record, Refusal> {
    let &[version, ref data @ .., sum] = body;
    allow(version == VERSION)?;
    let mut master = [0; MASTER_LENGTH];
    pack_tested(data, sum, &mut master)?;
    Ok(Record::Master { master })
}

fn remote_edit(bytes: [u8; length::REMOTE_EDIT - ENVELOPE]) -> Result<Record, Refusal> {
    let [parameter, value] = bytes;
    Change::new(parameter, value)?;
    Ok(Record::RemoteEdit { bytes })
}

fn bus_edit(bytes: [u8; length::BUS_EDIT - ENVELOPE]) -> Result<Record, Refusal> {
    let [bus, source, amount, destination] = bytes;
    BusChange::new(bus, source, amount, destination)?;
    Ok(Record::BusEdit { bytes })
}

fn request_data(bytes: [u8; length::REQUEST_DATA - ENVELOPE]) -> Result<Record, Refusal> {
    let [wanted, number] = bytes;
    operation(Operation::RequestData { wanted, number })
}

fn group_mode(bytes: [u8; length::GROUP_MODE - ENVELOPE]) -> Result<Record, Refusal> {
    let [total, id] = bytes;
    operation(Operation::GroupMode { total, id })
}

fn set_bank(bytes: [u8; length::SET_BANK - ENVELOPE]) -> Result<Record, Refusal> {
    let [bank] = bytes;
    operation(Operation::SetBank { bank })
}

fn unlock_bank(_: [u8; length::UNLOCK_BANK - ENVELOPE]) -> Result<Record, Refusal> {
    operation(Operation::UnlockBank)
}

fn store_edit_buffer(bytes: [u8; length::STORE_EDIT_BUFFER - ENVELOPE]) -> Result<Record, Refusal> {
    let [number, bank, id] = bytes;
    operation(Operation::StoreEditBuffer { number, bank, id })
}

fn operation(operation: Operation) -> Result<Record, Refusal> {
    operation.tested().map(Record::Operation)
}

fn allow(allowed: bool) -> Result<(), Refusal> {
    allowed.then_some(()).ok_or(Refusal::plain(NOT_ALLOWED))
}

/// Packs a dump's data: 9 with the first wide byte's index, then 10.
fn pack_tested(data: &[u8], received: u8, packed: &mut [u8]) -> Result<(), Refusal> {
    if let Some(index) = first_wide(data) {
        return Err(Refusal::at(WIDE_DATA, index));
    }
    pack(data, packed);
    if sum(packed) != received {
        return Err(Refusal::plain(WRONG_SUM));
    }
    Ok(())
}

//! Operations, sent and handed to their writers: any, and every value of every byte, every byte in
//! place of every byte, every length.

use compare::ffi::{A_CALL, EMPTY};
use reference::kinds::{length, opcode};
use reference::streams::{inputs, Random};
use reference::CableReader;

use crate::cable::Deed;
use crate::calls::{around, call, sent};
use crate::feeds;
use crate::lent::{Call, Lent};
use crate::units;

/// The bytes that a message can carry, and all.
const CARRIED: usize = 0x80;
const BYTES: usize = 0x100;

/// The kinds: opcode, length.
const KINDS: [(u8, usize); 5] = [
    (opcode::REQUEST_DATA, length::REQUEST_DATA),
    (opcode::GROUP_MODE, length::GROUP_MODE),
    (opcode::SET_BANK, length::SET_BANK),
    (opcode::UNLOCK_BANK, length::UNLOCK_BANK),
    (opcode::STORE_EDIT_BUFFER, length::STORE_EDIT_BUFFER),
];

/// Every value sent: each pair of bytes of a request and of a group message, each bank, unlock, and the
/// store messages.
pub const SENT: usize = STORES_FROM + stores(CARRIED);
const GROUPS_FROM: usize = CARRIED * CARRIED;
const BANKS_FROM: usize = 2 * GROUPS_FROM;
const UNLOCK_FROM: usize = BANKS_FROM + CARRIED;
const STORES_FROM: usize = UNLOCK_FROM + 1;

/// So many store messages of bytes below `values`: each byte at each place; the two others good, either
/// of them bad, or both; several of each.
const fn stores(values: usize) -> usize {
    TIMES * OTHERS * 3 * values
}
const TIMES: usize = 4;
const OTHERS: usize = 4;

/// Every byte in place of every byte of so many operations of each kind.
pub const REPLACED: usize = TIMES * PLACES * BYTES;
const PLACES: usize = 7 + 7 + 6 + 5 + 8;

/// So many messages of each kind of each length, from the shortest on.
pub const LENGTHS: usize = TIMES * KINDS.len() * LONGEST;
const LONGEST: usize = 60;

/// Every pair of bytes handed to a writer: with just room enough, and with about as much.
pub const PAIRS: usize = 2 * BYTES * BYTES;
/// The same of every byte.
pub const BANKS: usize = 2 * BYTES;
/// The same of store messages.
pub const STORES: usize = 2 * stores(BYTES);

/// So many outputs of each length, from nothing on, half of them for a good operation.
pub const ROOMS: usize = 16 * LONGEST_ROOM;
const LONGEST_ROOM: usize = 40;

/// Lends an output for the writer of a message of this length, and the bytes.
fn written(random: &mut Random, room: usize, bytes: &[u8]) -> Call {
    let mut four = [0; 4];
    four[..bytes.len()].copy_from_slice(bytes);
    Call {
        second: Lent::filled(random, room),
        bytes: four,
        ..call(random)
    }
}

/// The same with about as much room as it needs.
fn written_around(random: &mut Random, needed: usize, bytes: &[u8]) -> Call {
    let room = around(random, needed);
    written(random, room, bytes)
}

pub fn write_request(random: &mut Random) -> Call {
    let request = inputs::request(random);
    written_around(random, length::REQUEST_DATA, &request)
}

pub fn write_group(random: &mut Random) -> Call {
    let group = inputs::group(random);
    written_around(random, length::GROUP_MODE, &group)
}

pub fn write_bank_number(random: &mut Random) -> Call {
    let bank = inputs::bank_number(random);
    written_around(random, length::SET_BANK, &bank)
}

pub fn write_unlock(random: &mut Random) -> Call {
    written_around(random, length::UNLOCK_BANK, &[])
}

pub fn write_store(random: &mut Random) -> Call {
    let store = inputs::store(random);
    written_around(random, length::STORE_EDIT_BUFFER, &store)
}

/// The bytes of a number in one half of all, with just room enough; in the other, with about as much.
fn every_written(random: &mut Random, is_exact: bool, needed: usize, bytes: &[u8]) -> Call {
    if is_exact {
        written(random, needed, bytes)
    } else {
        written_around(random, needed, bytes)
    }
}

/// Each byte with each byte, for a writer of two: requests and group messages are of one length.
pub fn every_pair(random: &mut Random, number: usize) -> Call {
    let [first, second, half, ..] = number.to_le_bytes();
    every_written(random, half == 0, length::REQUEST_DATA, &[first, second])
}

pub fn every_bank(random: &mut Random, number: usize) -> Call {
    let [bank, half, ..] = number.to_le_bytes();
    every_written(random, half == 0, length::SET_BANK, &[bank])
}

pub fn every_store(random: &mut Random, number: usize) -> Call {
    let all = stores(BYTES);
    let store = store(random, number % all, BYTES);
    every_written(random, number < all, length::STORE_EDIT_BUFFER, &store)
}

/// The store message of a number below `stores(values)`.
fn store(random: &mut Random, number: usize, values: usize) -> [u8; 3] {
    let mut bytes = inputs::good_store(random);
    let most = (values - 1) as u8;
    let place = number % 3;
    let others = number / (3 * values) % OTHERS;
    for (bit, other) in [(1, (place + 1) % 3), (2, (place + 2) % 3)] {
        if others & bit != 0 {
            bytes[other] = inputs::bad_store_byte(random, other, most);
        }
    }
    bytes[place] = (number / 3 % values) as u8;
    bytes
}

/// An output of every length, for a request.
pub fn every_request_room(random: &mut Random, number: usize) -> Call {
    every_room(random, number, inputs::good_request, inputs::request)
}

pub fn every_group_room(random: &mut Random, number: usize) -> Call {
    every_room(random, number, inputs::good_group, inputs::group)
}

pub fn every_bank_room(random: &mut Random, number: usize) -> Call {
    let (good, any) = (inputs::good_bank_number, inputs::bank_number);
    every_room(random, number, good, any)
}

pub fn every_unlock_room(random: &mut Random, number: usize) -> Call {
    every_room(random, number, |_| [], |_| [])
}

pub fn every_store_room(random: &mut Random, number: usize) -> Call {
    every_room(random, number, inputs::good_store, inputs::store)
}

/// An output of every length, for bytes made in the one way or the other.
fn every_room<const LENGTH: usize>(
    random: &mut Random,
    number: usize,
    good: fn(&mut Random) -> [u8; LENGTH],
    any: fn(&mut Random) -> [u8; LENGTH],
) -> Call {
    let is_good = (number / LONGEST_ROOM).is_multiple_of(2);
    let make = if is_good { good } else { any };
    let bytes = make(random);
    written(random, number % LONGEST_ROOM, &bytes)
}

/// An accepted operation of a kind.
fn good(random: &mut Random, kind: usize) -> Vec<u8> {
    let (opcode, _) = KINDS[kind];
    match opcode {
        opcode::REQUEST_DATA => sent(opcode, &inputs::good_request(random)),
        opcode::GROUP_MODE => sent(opcode, &inputs::good_group(random)),
        opcode::SET_BANK => sent(opcode, &inputs::good_bank_number(random)),
        opcode::UNLOCK_BANK => sent(opcode, &[]),
        _ => sent(opcode, &inputs::good_store(random)),
    }
}

/// An accepted operation of any kind.
fn any_good(random: &mut Random) -> Vec<u8> {
    let kind = random.below(KINDS.len());
    good(random, kind)
}

/// The operation of a number below `SENT`.
fn numbered(random: &mut Random, number: usize) -> Vec<u8> {
    let pair = |number: usize| [number / CARRIED, number % CARRIED].map(|byte| byte as u8);
    match number {
        0..GROUPS_FROM => sent(opcode::REQUEST_DATA, &pair(number)),
        GROUPS_FROM..BANKS_FROM => sent(opcode::GROUP_MODE, &pair(number - GROUPS_FROM)),
        BANKS_FROM..UNLOCK_FROM => sent(opcode::SET_BANK, &[(number - BANKS_FROM) as u8]),
        UNLOCK_FROM..STORES_FROM => sent(opcode::UNLOCK_BANK, &[]),
        _ => {
            let store = store(random, number - STORES_FROM, CARRIED);
            sent(opcode::STORE_EDIT_BUFFER, &store)
        }
    }
}

/// An operation with a byte replaced: by each byte, at each place of each kind.
fn replaced(random: &mut Random, number: usize) -> Vec<u8> {
    let mut place = number / BYTES % PLACES;
    let lengths = KINDS.iter().map(|&(_, length)| length);
    let kind = lengths.take_while(|&length| {
        let is_behind = place >= length;
        place -= if is_behind { length } else { 0 };
        is_behind
    });
    let kind = kind.count();
    let mut message = good(random, kind);
    message[place] = (number % BYTES) as u8;
    message
}

/// A message with an operation's opcode, of each length.
fn of_length(random: &mut Random, number: usize) -> Vec<u8> {
    let (opcode, _) = KINDS[number % KINDS.len()];
    let length = number / KINDS.len() % LONGEST;
    let most = random.pick(&[0, 1, 5, 127]);
    let body: Vec<u8> = (0..length).map(|_| random.byte_within(0..=most)).collect();
    sent(opcode, &body)
}

/// A stream with a message behind an accepted one and before another, from the message on, and a unit
/// in any state.
fn between(random: &mut Random, message: &[u8]) -> Call {
    let before = any_good(random);
    let stream = [&before, message, &any_good(random)].concat();
    let length = random.below(4);
    Call {
        first: Lent::new(random, &stream),
        second: Lent::filled(random, length),
        room: Lent::filled(random, A_CALL * EMPTY.len()),
        place: before.len(),
        unit: units::any(random),
        ..call(random)
    }
}

pub fn every_sent(random: &mut Random, number: usize) -> Call {
    let message = numbered(random, number);
    between(random, &message)
}

pub fn every_replaced(random: &mut Random, number: usize) -> Call {
    let message = replaced(random, number);
    between(random, &message)
}

pub fn every_length(random: &mut Random, number: usize) -> Call {
    let message = of_length(random, number);
    between(random, &message)
}

/// Every value straight from the cable: cut anywhere, what is left fed again until all is taken.
pub fn every_fed(random: &mut Random, number: usize) -> Call {
    let message = numbered(random, number);
    let stream = [message, any_good(random)].concat();
    let first = random.within(1..=stream.len());
    let deeds = [first, stream.len(), stream.len()].map(Deed::Feed);
    feeds::lent(random, CableReader::new(), &stream, deeds.to_vec())
}

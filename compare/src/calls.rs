//! Inputs for each routine: good, damaged and hostile, with slices of every length around the
//! needed one.

use compare::ffi::{Unit, A_CALL, EMPTY};
use reference::streams::{self, inputs, Random};
use reference::{reports, BANK_PATCHES, NAME_LENGTH, PATCH_LENGTH, SPLIT_LENGTH};

use crate::lent::{Call, Lent};

/// A length around the needed one: mostly enough, often exact or within four, sometimes any.
pub fn around(random: &mut Random, needed: usize) -> usize {
    match random.below(8) {
        0 => needed.saturating_sub(random.within(1..=4)),
        1 => random.below(needed + 1),
        2 | 3 => needed,
        4 => needed + random.within(1..=4),
        _ => needed + random.below(40),
    }
}

/// A call that lends nothing.
pub fn call(random: &mut Random) -> Call {
    Call {
        first: Lent::filled(random, 0),
        second: Lent::filled(random, 0),
        room: Lent::filled(random, 0),
        place: 0,
        bytes: [0; 4],
        unit: Unit::default(),
        third: Lent::filled(random, 0),
        run: None,
    }
}

/// A stream and a place to walk it from.
pub type Stream = (Vec<u8>, usize);

/// A place in a stream: the start of a message, or anywhere, past the end too.
pub fn placed(random: &mut Random, input: Vec<u8>) -> Stream {
    let place = if random.one_in(2) {
        let some = random.below(6);
        let report = reports(&input).take(some + 1).last();
        report.map_or(0, |report| match random.below(8) {
            0 => report.end,
            1 => report.start + 1,
            _ => report.start.saturating_sub(random.below(3)),
        })
    } else {
        inputs::place(random, &input)
    };
    (input, place)
}

fn stream(random: &mut Random) -> Stream {
    let input = streams::stream(random.draw());
    placed(random, input)
}

/// A stream with real time among all its bytes, seldom or many behind each.
pub fn noisy_stream(random: &mut Random) -> Vec<u8> {
    let seldom = random.within(2..=8);
    let mut input = Vec::new();
    for byte in streams::stream(random.draw()) {
        input.push(byte);
        while random.one_in(seldom) {
            input.push(random.byte_within(0xF8..=0xFF));
        }
    }
    input
}

fn noisy(random: &mut Random) -> Stream {
    let input = noisy_stream(random);
    placed(random, input)
}

pub fn walk(random: &mut Random) -> Call {
    let stream = stream(random);
    walk_of(random, stream)
}

pub fn walk_noisy(random: &mut Random) -> Call {
    let stream = noisy(random);
    walk_of(random, stream)
}

pub fn walk_of(random: &mut Random, (input, place): Stream) -> Call {
    Call {
        first: Lent::new(random, &input),
        place,
        ..call(random)
    }
}

pub fn read(random: &mut Random) -> Call {
    let stream = stream(random);
    read_of(random, stream)
}

pub fn read_noisy(random: &mut Random) -> Call {
    let stream = noisy(random);
    read_of(random, stream)
}

fn read_of(random: &mut Random, (input, place): Stream) -> Call {
    let needed = random.pick(&[0, 18, 134, 134, 134, 172, 172]);
    let length = around(random, needed);
    Call {
        first: Lent::new(random, &input),
        second: Lent::filled(random, length),
        place,
        ..call(random)
    }
}

pub fn reports_from(random: &mut Random) -> Call {
    let stream = stream(random);
    reports_of(random, stream)
}

pub fn reports_noisy(random: &mut Random) -> Call {
    let stream = noisy(random);
    reports_of(random, stream)
}

fn reports_of(random: &mut Random, (input, place): Stream) -> Call {
    let length = match random.below(8) {
        0 => random.below(EMPTY.len() + 1),
        1 => around(random, A_CALL * EMPTY.len()),
        2 => random.below(600),
        _ => random.below(64),
    };
    Call {
        first: Lent::new(random, &input),
        room: Lent::filled(random, length),
        place,
        ..call(random)
    }
}

/// A patch in `first`, and room for this many bytes in `second`.
fn patch(random: &mut Random, needed: usize) -> Call {
    let patch = inputs::patch(random);
    let length = around(random, needed);
    Call {
        first: Lent::new(random, &patch),
        second: Lent::filled(random, length),
        ..call(random)
    }
}

pub fn test_patch(random: &mut Random) -> Call {
    let mut call = patch(random, 0);
    // Half of them anything but usual: one byte anywhere replaced by any.
    if random.one_in(2) && call.first.get().len() == PATCH_LENGTH {
        let place = random.below(PATCH_LENGTH);
        call.first.get_mut()[place] = random.byte();
    }
    call
}

/// A split in `first`, and room for this many bytes in `second`.
fn split(random: &mut Random, needed: usize) -> Call {
    let split = inputs::split(random);
    let length = around(random, needed);
    Call {
        first: Lent::new(random, &split),
        second: Lent::filled(random, length),
        ..call(random)
    }
}

pub fn test_split(random: &mut Random) -> Call {
    let mut call = split(random, 0);
    // Half of them anything but usual: one byte anywhere replaced by any.
    if random.one_in(2) && call.first.get().len() == SPLIT_LENGTH {
        let place = random.below(SPLIT_LENGTH);
        call.first.get_mut()[place] = random.byte();
    }
    call
}

pub fn value_of(random: &mut Random) -> Call {
    Call {
        bytes: [inputs::parameter(random), 0, 0, 0],
        ..patch(random, 0)
    }
}

pub fn set_name(random: &mut Random) -> Call {
    let name = inputs::name(random);
    Call {
        second: Lent::new(random, &name),
        ..patch(random, 0)
    }
}

pub fn show_name(random: &mut Random) -> Call {
    patch(random, NAME_LENGTH)
}

pub fn apply_edit(random: &mut Random) -> Call {
    Call {
        bytes: two(inputs::edit(random)),
        ..patch(random, 0)
    }
}

pub fn apply_bus_edit(random: &mut Random) -> Call {
    Call {
        bytes: inputs::bus_edit(random),
        ..patch(random, 0)
    }
}

pub fn write_patch(random: &mut Random) -> Call {
    Call {
        bytes: [inputs::number(random), 0, 0, 0],
        ..patch(random, 275)
    }
}

pub fn write_split(random: &mut Random) -> Call {
    Call {
        bytes: [inputs::split_number(random), 0, 0, 0],
        ..split(random, 43)
    }
}

pub fn write_edit_buffer(random: &mut Random) -> Call {
    patch(random, 275)
}

pub fn write_master(random: &mut Random) -> Call {
    let master = inputs::master(random);
    let length = around(random, 351);
    Call {
        first: Lent::new(random, &master),
        second: Lent::filled(random, length),
        ..call(random)
    }
}

pub fn write_edit(random: &mut Random) -> Call {
    let length = around(random, 7);
    Call {
        second: Lent::filled(random, length),
        bytes: two(inputs::edit(random)),
        ..call(random)
    }
}

pub fn write_bus_edit(random: &mut Random) -> Call {
    let length = around(random, 9);
    Call {
        second: Lent::filled(random, length),
        bytes: inputs::bus_edit(random),
        ..call(random)
    }
}

pub fn write_bank(random: &mut Random) -> Call {
    let bank = inputs::bank(random);
    let patches = (bank.len() / PATCH_LENGTH).min(BANK_PATCHES);
    let length = around(random, 275 * patches);
    Call {
        first: Lent::new(random, &bank),
        second: Lent::filled(random, length),
        ..call(random)
    }
}

/// The remote edit of a number below 65,536: each parameter with each value, on a good patch.
pub fn every_edit(random: &mut Random, number: usize) -> Call {
    let patch = inputs::good_patch(random);
    let [parameter, value, ..] = number.to_le_bytes();
    Call {
        first: Lent::new(random, &patch),
        second: Lent::filled(random, 7),
        bytes: two([parameter, value]),
        ..call(random)
    }
}

/// The bus edit of a number below 10 times 65,536: each bus with each source and each destination,
/// on a good patch.
pub fn every_bus_edit(random: &mut Random, number: usize) -> Call {
    let patch = inputs::good_patch(random);
    let [_, _, amount, _] = inputs::good_bus_edit(random);
    let [source, destination, bus, ..] = number.to_le_bytes();
    Call {
        first: Lent::new(random, &patch),
        second: Lent::filled(random, 9),
        bytes: [bus, source, amount, destination],
        ..call(random)
    }
}

/// The bus edit of a number below 65,536: each byte as bus with each byte as amount, on a good patch.
pub fn every_amount(random: &mut Random, number: usize) -> Call {
    let [_, source, _, destination] = inputs::good_bus_edit(random);
    let [amount, bus, ..] = number.to_le_bytes();
    Call {
        bytes: [bus, source, amount, destination],
        ..every_bus_edit(random, 0)
    }
}

/// An edit or an operation as a message.
pub fn sent(opcode: u8, bytes: &[u8]) -> Vec<u8> {
    [&[0xF0, 0x10, 0x06, opcode], bytes, &[0xF7]].concat()
}

/// The same edit sent, between other bytes.
pub fn every_amount_sent(random: &mut Random, number: usize) -> Call {
    let edit = every_amount(random, number).bytes;
    let stream = [&[0x7F], sent(0x0B, &edit).as_slice(), &[0x00]].concat();
    Call {
        first: Lent::new(random, &stream),
        ..call(random)
    }
}

/// Both edits of a number below 2 times 16,384 sent, from the first of them or from the second: each
/// parameter with each value, and each source with each destination.
pub fn every_edit_sent(random: &mut Random, number: usize) -> Call {
    let [bus, _, amount, _] = inputs::good_bus_edit(random);
    let [low, high] = [number, number >> 7].map(|bits| bits as u8 & 0x7F);
    let stream = [
        sent(0x06, &[high, low]),
        sent(0x0B, &[bus, high, amount, low]),
    ]
    .concat();
    Call {
        first: Lent::new(random, &stream),
        room: Lent::filled(random, A_CALL * EMPTY.len()),
        place: number >> 14,
        ..call(random)
    }
}

/// A call with one of the 256 bytes.
pub fn every_byte(random: &mut Random, number: usize) -> Call {
    Call {
        bytes: [number as u8, 0, 0, 0],
        ..call(random)
    }
}

/// A call with one of the 256 bytes and a good patch.
pub fn every_parameter(random: &mut Random, number: usize) -> Call {
    let patch = inputs::good_patch(random);
    Call {
        first: Lent::new(random, &patch),
        ..every_byte(random, number)
    }
}

/// A good patch with the byte at one of its places replaced, by each of the 256.
pub fn every_field(random: &mut Random, number: usize) -> Call {
    let mut patch = inputs::good_patch(random);
    patch[number >> 8] = number as u8;
    Call {
        first: Lent::new(random, &patch),
        ..call(random)
    }
}

/// A good split with the byte at one of its places replaced, by each of the 256.
pub fn every_split_field(random: &mut Random, number: usize) -> Call {
    let mut split = inputs::good_split(random);
    split[number >> 8] = number as u8;
    Call {
        first: Lent::new(random, &split),
        ..call(random)
    }
}

/// A good split with each byte as its number, and just room enough for it.
pub fn every_split_number(random: &mut Random, number: usize) -> Call {
    let split = inputs::good_split(random);
    Call {
        first: Lent::new(random, &split),
        second: Lent::filled(random, 43),
        ..every_byte(random, number)
    }
}

fn two([parameter, value]: [u8; 2]) -> [u8; 4] {
    [parameter, value, 0, 0]
}

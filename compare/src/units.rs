//! Units: those that calls are about, and what a step and a chain of them come to.

use compare::ffi::{self, Step, Unit};
use reference::streams::units::{chain, chain_message, unit, unit_stream};
use reference::streams::{self, Random};

use crate::cable::report_of;
use crate::calls::{self, call, noisy_stream, placed, walk_of};
use crate::lent::{Call, Lent};

/// Every place of so many streams, cut to a length; a shorter one again from its start.
pub const PLACES: usize = STREAMS * STREAM_PLACES;
const STREAMS: usize = 32;
const STREAM_PLACES: usize = 1_024;

/// Every number in a group, group mode on or off, the bank locked or not, and every ID.
pub const IDS: usize = 4 << 16;

/// A unit in any state: while group mode is off its number is any byte too.
pub fn any(random: &mut Random) -> Unit {
    let before = Unit {
        number: random.byte(),
        ..Unit::default()
    };
    library(unit(random), before)
}

/// The second program's unit. It has a number only while group mode is on.
pub fn plain(unit: Unit) -> reference::Unit {
    reference::Unit {
        bank: unit.bank,
        locked: unit.locked,
        group: unit.grouped.then_some(unit.number),
    }
}

/// The library's unit. Until group mode is on its number stays.
fn library(unit: reference::Unit, before: Unit) -> Unit {
    Unit {
        bank: unit.bank,
        locked: unit.locked,
        grouped: unit.group.is_some(),
        number: unit.group.unwrap_or(before.number),
    }
}

/// What a step is to come to.
pub fn expected(call: &Call) -> Step {
    let reference::Step {
        report,
        unit,
        meant,
        sent,
    } = plain(call.unit).step(call.first.get(), call.place);
    let report = report_of(report);
    Step {
        report,
        unit: library(unit, call.unit),
        meant,
        count: sent.map_or(0, |sent| sent.len() as u8),
        sent: sent.unwrap_or_default(),
    }
}

/// A stream of several messages, or any, and a unit.
pub fn step(random: &mut Random) -> Call {
    let input = if random.one_in(4) {
        streams::stream(random.draw())
    } else {
        unit_stream(random)
    };
    let stream = placed(random, input);
    step_of(random, stream)
}

pub fn step_noisy(random: &mut Random) -> Call {
    let input = noisy_stream(random);
    let stream = placed(random, input);
    step_of(random, stream)
}

/// A stream from each of its places.
pub fn step_place(random: &mut Random, index: usize) -> Call {
    let mut input = unit_stream(&mut Random::new((index / STREAM_PLACES) as u64));
    input.truncate(STREAM_PLACES - 2);
    let place = index % STREAM_PLACES % (input.len() + 2);
    step_of(random, (input, place))
}

fn step_of(random: &mut Random, stream: calls::Stream) -> Call {
    Call {
        unit: any(random),
        ..walk_of(random, stream)
    }
}

/// A unit by its number, its group mode and its lock, and an ID.
pub fn every_id(random: &mut Random, index: usize) -> Call {
    let [id, number, flags, ..] = index.to_le_bytes();
    Call {
        bytes: [id, 0, 0, 0],
        unit: Unit {
            bank: random.byte(),
            locked: flags & 1 != 0,
            grouped: flags & 2 != 0,
            number,
        },
        ..call(random)
    }
}

/// The units of a chain, four bytes each, and a message for the first.
pub fn any_chain(random: &mut Random) -> Call {
    let units = chain(random).into_iter().flat_map(|unit| {
        let before = any(random);
        bytes(library(unit, before))
    });
    let units: Vec<u8> = units.collect();
    let message = chain_message(random);
    Call {
        first: Lent::new(random, &units),
        second: Lent::new(random, &message),
        ..call(random)
    }
}

/// A unit as it stands in a chain.
fn bytes(unit: Unit) -> [u8; 4] {
    let Unit {
        bank,
        locked,
        grouped,
        number,
    } = unit;
    [bank, locked.into(), grouped.into(), number]
}

fn of_bytes([bank, locked, grouped, number]: [u8; 4]) -> Unit {
    Unit {
        bank,
        locked: locked == 1,
        grouped: grouped == 1,
        number,
    }
}

/// Feeds the first unit of a chain the message, and each next one what the one before it sends on. Gives
/// how many were fed.
pub fn library_chain(call: &mut Call) -> usize {
    let mut message = call.second.get().to_vec();
    let (units, _) = call.first.get_mut().as_chunks_mut::<4>();
    let mut fed = 0;
    for unit in units {
        let step = ffi::unit_step(of_bytes(*unit), &message, 0);
        *unit = bytes(step.unit);
        fed += 1;
        if step.count == 0 {
            break;
        }
        message = step.sent[..usize::from(step.count)].to_vec();
    }
    fed
}

/// What a chain is to come to.
pub fn expected_chain(call: &mut Call) -> usize {
    let (before, _) = call.first.get_mut().as_chunks_mut::<4>();
    let mut units: Vec<_> = before.iter().map(|unit| plain(of_bytes(*unit))).collect();
    let fed = reference::feed_chain(&mut units, call.second.get());
    for (before, unit) in before.iter_mut().zip(units) {
        *before = bytes(library(unit, of_bytes(*before)));
    }
    fed
}

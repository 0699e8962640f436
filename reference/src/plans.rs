//! Lists of edits that turn one patch into another: a planner that proposes the shortest, and a
//! checker that accepts a right one, whoever made it.

use crate::answers::{Outcome, Refusal, NOT_ACCEPTED, OTHER_NAME};
use crate::edits::{BusChange, Change};
use crate::frames::{END, START};
use crate::kinds::{length, opcode, MATRIX, OBERHEIM};
use crate::names::NAME_LENGTH;
use crate::patch::{tested, Patch, BUSES};
use crate::table::{parameter_of, PATCH_LENGTH};
use crate::writing::{put_message, room};

/// The length of the list for two patches that differ in all 96 parameters and all ten buses.
pub const LONGEST_PLAN: usize = 96 * length::REMOTE_EDIT + 10 * length::BUS_EDIT;

/// Plans the edits that turn patch `a` into patch `b`, by rising byte place: one for each differing
/// parameter, one for each differing bus. When done, the detail is the bytes written.
///
/// The 7, 11 and 12 of `a`, then those of `b`, then 16 where the names differ, then 13.
pub fn plan(a: &[u8], b: &[u8], out: &mut [u8]) -> Outcome {
    planned(a, b, out).into()
}

/// Checks a list: it is accepted exactly when it has edits as our writer writes them and nothing
/// else, each is allowed in turn, and the last patch equals `b`.
///
/// The 7, 11 and 12 of `a`, then those of `b`, then 16 where the names differ, then 20.
pub fn check_plan(a: &[u8], b: &[u8], list: &[u8]) -> Outcome {
    checked(a, b, list).map(|()| 0).into()
}

fn planned(a: &[u8], b: &[u8], out: &mut [u8]) -> Result<usize, Refusal> {
    let (a, b) = of_one_name(a, b)?;
    let length = parts(a, b).map(Part::length).sum();
    let mut list = room(out, length)?;
    for part in parts(a, b) {
        let (message, behind) = list.split_at_mut(part.length());
        part.put(b, message)?;
        list = behind;
    }
    Ok(length)
}

fn checked(a: &[u8], b: &[u8], list: &[u8]) -> Result<(), Refusal> {
    let (a, b) = of_one_name(a, b)?;
    match edited(*a, list) {
        Some(last) if last == *b => Ok(()),
        _ => Err(Refusal::plain(NOT_ACCEPTED)),
    }
}

/// Both patches are tested, the first before the second; then 16 where their names differ.
fn of_one_name<'p>(a: &'p [u8], b: &'p [u8]) -> Result<(&'p Patch, &'p Patch), Refusal> {
    let (a, b) = (tested(a)?, tested(b)?);
    if a[..NAME_LENGTH] != b[..NAME_LENGTH] {
        return Err(Refusal::plain(OTHER_NAME));
    }
    Ok((a, b))
}

/// The patch behind the last edit of a list; none where anything else stands in it or an edit is
/// refused. An allowed edit leaves the next one a patch that passes the tests, so that only the
/// edit's own refusals are left.
fn edited(mut patch: Patch, mut list: &[u8]) -> Option<Patch> {
    while !list.is_empty() {
        list = match *list.strip_prefix(&[START, OBERHEIM, MATRIX])? {
            [opcode::REMOTE_EDIT, parameter, value, END, ref behind @ ..] => {
                Change::new(parameter, value).ok()?.apply(&mut patch);
                behind
            }
            [opcode::BUS_EDIT, bus, source, amount, destination, END, ref behind @ ..] => {
                let change = BusChange::new(bus, source, amount, destination).ok()?;
                change.apply(&mut patch);
                behind
            }
            _ => return None,
        };
    }
    Some(patch)
}

/// What one edit changes, with its byte place; for a bus that of its source.
#[derive(Clone, Copy)]
pub(crate) enum Part {
    Parameter { place: usize, parameter: u8 },
    Bus { place: usize, bus: u8 },
}

/// The parts in which two patches differ, by rising byte place. Names are no edit's.
pub(crate) fn parts<'p>(a: &'p Patch, b: &'p Patch) -> impl Iterator<Item = Part> + 'p {
    let parameters = (NAME_LENGTH..BUSES).filter(|&place| a[place] != b[place]);
    let buses = (BUSES..PATCH_LENGTH).step_by(3);
    let buses = buses.filter(|&place| bus_at(a, place) != bus_at(b, place));
    parameters.map(Part::parameter).chain(buses.map(Part::bus))
}

/// The source, the amount and the destination of the bus whose source stands at a place.
pub(crate) fn bus_at(patch: &Patch, place: usize) -> [u8; 3] {
    [patch[place], patch[place + 1], patch[place + 2]]
}

impl Part {
    fn parameter(place: usize) -> Self {
        let parameter = parameter_of(place as u8).expect("bytes 8 to 103 have parameters");
        Self::Parameter { place, parameter }
    }

    const fn bus(place: usize) -> Self {
        let bus = ((place - BUSES) / 3) as u8;
        Self::Bus { place, bus }
    }

    /// The length of the edit's message.
    const fn length(self) -> usize {
        match self {
            Self::Parameter { .. } => length::REMOTE_EDIT,
            Self::Bus { .. } => length::BUS_EDIT,
        }
    }

    /// Puts the edit that makes this part what it is in a patch.
    pub fn put(self, patch: &Patch, out: &mut [u8]) -> Result<usize, Refusal> {
        match self {
            Self::Parameter { place, parameter } => {
                let body = [parameter, sent(patch[place])];
                put_message(opcode::REMOTE_EDIT, &body, out)
            }
            Self::Bus { place, bus } => {
                let [source, amount, destination] = bus_at(patch, place);
                let body = [bus, source, sent(amount), destination];
                put_message(opcode::BUS_EDIT, &body, out)
            }
        }
    }
}

/// The seven bits sent for a stored value; bit 7 is a copy of bit 6, or 0 in a field without sign.
const fn sent(stored: u8) -> u8 {
    stored & 0x7F
}

//! A model of a unit: what it keeps of the operations that it is sent, which store messages are
//! meant for it, and what it sends on. And units in a chain.

use crate::answers::Report;
use crate::frames::{END, START};
use crate::kinds::{length, opcode, ANY_UNIT, LAST_ID, MATRIX, OBERHEIM};
use crate::operations::Operation;
use crate::reading::walk_and;
use crate::records::Record;

/// A unit.
#[derive(Clone, Copy, Debug, Default, PartialEq, Eq)]
pub struct Unit {
    /// Its bank.
    pub bank: u8,
    /// Whether the bank is locked.
    pub locked: bool,
    /// Its number in the group, if group is on.
    pub group: Option<u8>,
}

/// What a message does to a unit.
#[derive(Clone, Copy, Debug, PartialEq, Eq)]
#[must_use]
pub struct Step {
    /// The walk's report of the message.
    pub report: Report,
    /// The unit after it.
    pub unit: Unit,
    /// Whether it is an accepted store message that is meant for the unit.
    pub meant: bool,
    /// The group message that is sent on, if one is.
    pub sent: Option<[u8; length::GROUP_MODE]>,
}

impl Unit {
    /// What the first message that starts at `place` or later does to the unit. A refused one, one
    /// of another kind, and none at all change nothing.
    #[inline]
    pub fn step(self, input: &[u8], place: usize) -> Step {
        let (report, operation) = walk_and(input, place, Record::operation);
        let mut step = Step {
            report,
            unit: self,
            meant: false,
            sent: None,
        };
        match operation.flatten() {
            Some(Operation::GroupMode { total, id }) => {
                step.unit.group = Some(id);
                step.sent = sent_on(total, id);
            }
            Some(Operation::SetBank { bank }) => {
                step.unit.bank = bank;
                step.unit.locked = true;
            }
            Some(Operation::UnlockBank) => step.unit.locked = false,
            Some(Operation::StoreEditBuffer { id, .. }) => step.meant = self.is_meant(id),
            Some(Operation::RequestData { .. }) | None => {}
        }
        step
    }

    /// Whether a store message with this ID is meant for the unit.
    #[must_use]
    pub const fn is_meant(self, id: u8) -> bool {
        match self.group {
            None => id == 0,
            Some(number) => id == number || id == ANY_UNIT,
        }
    }
}

/// A group message with the ID raised by one, for the next unit; none behind the last ID.
const fn sent_on(total: u8, id: u8) -> Option<[u8; length::GROUP_MODE]> {
    if id == LAST_ID {
        return None;
    }
    let opcode = opcode::GROUP_MODE;
    Some([START, OBERHEIM, MATRIX, opcode, total, id + 1, END])
}

/// Feeds the first unit of a chain a message, and each next one what the one before it sends on.
/// Gives how many units were fed.
pub fn feed_chain(units: &mut [Unit], message: &[u8]) -> usize {
    let Some((first, others)) = units.split_first_mut() else {
        return 0;
    };
    let step = first.step(message, 0);
    *first = step.unit;
    1 + step.sent.map_or(0, |sent| feed_chain(others, &sent))
}

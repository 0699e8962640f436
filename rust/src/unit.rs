//! A model of a unit: what it keeps of the operations that it is sent.

use std::fmt;
use std::iter::FusedIterator;

use crate::ffi;
use crate::{Report, Target};

/// A unit: its bank, whether that is locked, and its number while group mode is on.
///
/// The default is a unit at bank 0, not locked, with group mode off.
///
/// ```
/// use matrix1000::{to_vec, Error, Kind, Message, Target, Unit};
///
/// let to = Target::Unit(1);
/// let stream = to_vec([
///     Message::SetBank(3),
///     Message::GroupMode { total: 2, id: 1 },
///     Message::Store { number: 7, bank: 3, to },
/// ])?;
///
/// let mut steps = Unit::default().steps(&stream);
/// for step in &mut steps {
///     match step.report.kind {
///         Ok(Kind::Store) if step.meant => println!("it stores"),
///         Ok(kind) => println!("{kind}: {}", step.unit),
///         Err(error) => println!("at {}: {error}", step.report.start),
///     }
///     if let Some(message) = step.sent() {
///         assert_eq!(Message::read(message)?.kind(), Kind::GroupMode);
///     }
/// }
/// let unit = steps.unit();
/// assert_eq!(unit, Unit { bank: 3, locked: true, group: Some(1) });
/// assert!(unit.is_meant_by(to) && !unit.is_meant_by(Target::Unit(0)));
/// # Ok::<(), Error>(())
/// ```
#[derive(Clone, Copy, Debug, Default, PartialEq, Eq, Hash)]
pub struct Unit {
    /// The bank. A message sets it to 0 to 9.
    pub bank: u8,
    /// Whether the bank is locked.
    pub locked: bool,
    /// The number in the group, where group mode is on. A message sets it to 0 to 5.
    pub group: Option<u8>,
}

/// What a message does to a unit.
#[derive(Clone, Copy, Debug, PartialEq, Eq)]
#[non_exhaustive]
pub struct Step {
    /// What is said of the message.
    pub report: Report,
    /// The unit after it.
    pub unit: Unit,
    /// Whether it is a store message that is accepted and meant for this unit.
    pub meant: bool,
    /// What is sent on.
    sent: Option<[u8; 7]>,
}

impl Unit {
    /// The number of banks in a unit, which are numbered from 0.
    pub const BANKS: usize = 10;
    /// The most units in a group, which are numbered from 0.
    pub const GROUP: usize = 6;

    /// What the first message in some bytes does; none where there is no message.
    ///
    /// A bank message sets the bank and locks it, and an unlock message clears the lock. A group message
    /// turns group mode on, sets the number to its ID and, unless that is 5, is sent on with the ID
    /// raised by one. What a message is not said to change stays: all of it with a message of another
    /// kind and with one that is refused.
    ///
    /// ```
    /// use matrix1000::{Error, Message, Unit};
    ///
    /// let unit = Unit { bank: 9, ..Unit::default() };
    /// let step = unit.step(&Message::GroupMode { total: 6, id: 4 }.to_vec()?).unwrap();
    /// assert_eq!(step.unit, Unit { group: Some(4), ..unit });
    /// assert_eq!(step.sent(), Some(&[0xF0, 0x10, 0x06, 0x07, 6, 5, 0xF7][..]));
    ///
    /// // Bank 10 is refused.
    /// let step = unit.step(&[0xF0, 0x10, 0x06, 0x0A, 10, 0xF7]).unwrap();
    /// assert_eq!((step.unit, step.report.kind.unwrap_err().number()), (unit, 8));
    /// assert_eq!(unit.step(&[]), None);
    /// # Ok::<(), Error>(())
    /// ```
    #[must_use]
    pub fn step(self, input: &[u8]) -> Option<Step> {
        self.steps(input).next()
    }

    /// What each message of a stream does, accepted and refused, in their order.
    pub const fn steps(self, input: &[u8]) -> Steps<'_> {
        Steps {
            unit: self,
            input,
            place: 0,
        }
    }

    /// Takes every message of a stream, and gives what is sent on: group messages end to end.
    ///
    /// ```
    /// use matrix1000::{Error, Message, Unit};
    ///
    /// let mut unit = Unit::default();
    /// let sent = unit.receive(&Message::GroupMode { total: 2, id: 0 }.to_vec()?);
    /// assert_eq!(unit.group, Some(0));
    /// assert_eq!(sent, Message::GroupMode { total: 2, id: 1 }.to_vec()?);
    /// # Ok::<(), Error>(())
    /// ```
    pub fn receive(&mut self, input: &[u8]) -> Vec<u8> {
        let mut sent = Vec::new();
        for step in self.steps(input) {
            *self = step.unit;
            sent.extend(step.sent().unwrap_or_default());
        }
        sent
    }

    /// Whether a store message to this target is meant for the unit: with group mode off one to unit 0,
    /// with group mode on one to its own number or to any. There is no message to a target that is
    /// refused.
    #[must_use]
    pub fn is_meant_by(self, to: Target) -> bool {
        to.id().is_ok_and(|id| ffi::unit_meant(self.into(), id))
    }
}

impl Step {
    /// The message that the unit sends on to the next one, if it sends one.
    #[must_use]
    pub fn sent(&self) -> Option<&[u8]> {
        self.sent.as_ref().map(<[u8; 7]>::as_slice)
    }
}

/// An iterator over what the messages of a stream do to a unit. Made by [`Unit::steps`].
#[derive(Clone, Debug)]
#[must_use = "iterators are lazy"]
pub struct Steps<'a> {
    unit: Unit,
    input: &'a [u8],
    place: usize,
}

impl Steps<'_> {
    /// The unit after the last step.
    #[must_use]
    pub const fn unit(&self) -> Unit {
        self.unit
    }

    /// Where the next message is looked for.
    #[must_use]
    pub const fn place(&self) -> usize {
        self.place
    }
}

impl Iterator for Steps<'_> {
    type Item = Step;

    fn next(&mut self) -> Option<Step> {
        let ffi::Step {
            report,
            unit,
            meant,
            count,
            sent,
        } = ffi::unit_step(self.unit.into(), self.input, self.place);
        self.place = report.end;
        self.unit = unit.into();
        Some(Step {
            report: Report::within(self.input, report)?,
            unit: self.unit,
            meant,
            sent: (count != 0).then_some(sent),
        })
    }
}

// A search that found nothing ends at the input's length and finds nothing again.
impl FusedIterator for Steps<'_> {}

/// Feeds the first unit of a chain; each next one gets what the one before it sends on. Gives what the
/// last one sends on.
///
/// So one group message numbers them all:
///
/// ```
/// use matrix1000::{chain, Error, Message, Unit};
///
/// let mut units = [Unit::default(); 3];
/// let sent = chain(&mut units, &Message::GroupMode { total: 3, id: 0 }.to_vec()?);
/// assert_eq!(units.map(|unit| unit.group), [Some(0), Some(1), Some(2)]);
/// // The last one does not know that it is the last.
/// assert_eq!(Message::read(&sent), Ok(Message::GroupMode { total: 3, id: 3 }));
/// # Ok::<(), Error>(())
/// ```
pub fn chain(units: &mut [Unit], input: &[u8]) -> Vec<u8> {
    let first = input.to_vec();
    units
        .iter_mut()
        .fold(first, |arrived, unit| unit.receive(&arrived))
}

impl From<Unit> for ffi::Unit {
    fn from(unit: Unit) -> Self {
        let Unit {
            bank,
            locked,
            group,
        } = unit;
        Self {
            bank,
            locked,
            grouped: group.is_some(),
            number: group.unwrap_or_default(),
        }
    }
}

impl From<ffi::Unit> for Unit {
    fn from(unit: ffi::Unit) -> Self {
        let ffi::Unit {
            bank,
            locked,
            grouped,
            number,
        } = unit;
        Self {
            bank,
            locked,
            group: grouped.then_some(number),
        }
    }
}

impl fmt::Display for Unit {
    fn fmt(&self, f: &mut fmt::Formatter<'_>) -> fmt::Result {
        let locked = if self.locked { "locked" } else { "not locked" };
        write!(f, "bank {}, {locked}, ", self.bank)?;
        match self.group {
            Some(number) => write!(f, "unit {number} of a group"),
            None => f.write_str("group mode off"),
        }
    }
}

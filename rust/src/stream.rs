//! Finding messages in a stream.

use std::array;
use std::iter::FusedIterator;
use std::ops::Range;

use crate::error::Bare;
use crate::ffi;
use crate::{BusEdit, Edit, Error, Kind, Length, Master, Message, Patch, Request, Split, Target};

/// What is said of one message of a stream without reading its record.
#[derive(Clone, Copy, Debug, PartialEq, Eq)]
#[non_exhaustive]
pub struct Report {
    /// The place of its F0H.
    pub start: usize,
    /// The place behind it.
    pub end: usize,
    /// The kind of message, or why it was refused.
    pub kind: Result<Kind, Error>,
    /// How many bytes of real time (F8H..FFH) stood between the two places, whether the message was
    /// accepted or refused: how noisy the line was.
    pub noise: usize,
}

impl Report {
    /// The one place where a report is taken over, with the message's own bytes; none where there is
    /// no message.
    pub(crate) fn new(report: ffi::Report, message: impl IntoIterator<Item = u8>) -> Option<Self> {
        let ffi::Report {
            start,
            end,
            outcome,
            noise,
        } = report;
        let about = |bare| refusal(message, end - start - noise, bare);
        let kind = match Error::check(outcome, about) {
            Err(Error::NoMessage) => return None,
            accepted => accepted.map(accepted_kind),
        };
        Some(Self {
            start,
            end,
            kind,
            noise,
        })
    }

    /// A report on an input that is there whole.
    pub(crate) fn within(input: &[u8], report: ffi::Report) -> Option<Self> {
        let message = &input[report.start..report.end];
        Self::new(report, message.iter().copied())
    }

    /// Where the message stands in the stream.
    #[must_use]
    pub const fn range(&self) -> Range<usize> {
        self.start..self.end
    }
}

/// The kind of an accepted message, by its opcode, which is the detail.
fn accepted_kind(opcode: usize) -> Kind {
    let kind = u8::try_from(opcode).ok().map(Kind::try_from);
    match kind {
        Some(Ok(kind)) => kind,
        _ => unreachable!("no message of opcode {opcode} is accepted"),
    }
}

/// What the refusal of a message speaks of: its length without real time, the bytes behind its opcode,
/// or a field of what it has.
fn refusal(message: impl IntoIterator<Item = u8>, found: usize, bare: Bare) -> Error {
    let mut without_real_time = message.into_iter().filter(|byte| *byte < 0xF8);
    // It was not refused for its opcode, which is its fourth byte.
    let opcode = without_real_time.nth(3).unwrap_or_default();
    let kind = accepted_kind(opcode.into());
    let behind = array::from_fn(|_| without_real_time.next().unwrap_or_default());
    match bare {
        Bare::Length => Error::WrongLength(Length::Message { kind, found }),
        Bare::Number => kind.not_allowed(behind),
        Bare::Field { place, value } => {
            let format = kind
                .format()
                .expect("no other kind has fields that are tested");
            format.out_of_range(place, value)
        }
        Bare::Room => unreachable!("the buffer takes every record"),
        Bare::Names => unreachable!("a message has no second patch"),
        Bare::Stream => unreachable!("a message that ended was taken"),
    }
}

/// A message found in a stream.
#[derive(Clone, Copy, Debug, PartialEq, Eq)]
#[non_exhaustive]
pub struct Found {
    /// The place of its F0H.
    pub start: usize,
    /// The place behind it.
    pub end: usize,
    /// The message, or why it was refused.
    pub message: Result<Message, Error>,
    /// How many bytes of real time (F8H..FFH) stood between the two places, whether the message was
    /// accepted or refused: how noisy the line was.
    pub noise: usize,
}

impl Found {
    /// A report with the record of its message: the bytes that come with the answer, and a dump's
    /// packed bytes.
    pub(crate) fn new(report: Report, bytes: [u8; 4], packed: &[u8; Master::LENGTH]) -> Self {
        let Report {
            start,
            end,
            kind,
            noise,
        } = report;
        Self {
            start,
            end,
            message: kind.and_then(|kind| record(kind, bytes, packed)),
            noise,
        }
    }

    /// Where the message stands in the stream.
    #[must_use]
    pub const fn range(&self) -> Range<usize> {
        self.start..self.end
    }
}

/// The messages of a stream, accepted and refused, in their order.
///
/// Bytes between messages are skipped, and real time inside them is dropped and counted. Every F0H
/// starts a message, so no message is passed over in silence.
///
/// ```
/// use matrix1000::{messages, Error, Kind};
///
/// let input = [0x41, 0xF0, 0xF7, 0xF0, 0x10, 0x06, 0x06, 0x15, 0x7F, 0xF7, 0xF0];
/// let found: Vec<_> = messages(&input).collect();
/// assert_eq!(found.len(), 3);
/// assert_eq!(found[0].message, Err(Error::OtherMaker));
/// assert_eq!(found[1].range(), 3..10);
/// assert_eq!(found[1].message.map(|message| message.kind()), Ok(Kind::Edit));
/// assert_eq!(found[2].message, Err(Error::Cut));
/// ```
pub const fn messages(input: &[u8]) -> Messages<'_> {
    Messages { input, place: 0 }
}

/// An iterator over the messages of a stream: the input and a place in it. Made by [`messages`].
#[derive(Clone, Debug)]
#[must_use = "iterators are lazy"]
pub struct Messages<'a> {
    input: &'a [u8],
    place: usize,
}

impl Messages<'_> {
    /// Where the next message is looked for.
    #[must_use]
    pub const fn place(&self) -> usize {
        self.place
    }
}

impl Iterator for Messages<'_> {
    type Item = Found;

    fn next(&mut self) -> Option<Found> {
        let mut packed = [0; Master::LENGTH];
        let ffi::Reading { report, bytes } = ffi::read(self.input, self.place, &mut packed);
        self.place = report.end;
        let report = Report::within(self.input, report)?;
        Some(Found::new(report, bytes, &packed))
    }
}

// A search that found nothing ends at the input's length and finds nothing again.
impl FusedIterator for Messages<'_> {}

/// The record of an accepted message. All of it was tested in reading; what has a type of its own and
/// is no dump is tested again.
fn record(kind: Kind, bytes: [u8; 4], packed: &[u8; Master::LENGTH]) -> Result<Message, Error> {
    let patch = || Patch::tested(first(packed));
    let [number, second, third, _] = bytes;
    Ok(match kind {
        Kind::Patch => Message::Patch {
            number,
            patch: patch(),
        },
        Kind::Split => Message::Split {
            number,
            split: Split::tested(first(packed)),
        },
        Kind::Master => Message::Master(Master::from(*packed)),
        Kind::Request => Message::Request(Request::try_from([number, second])?),
        Kind::Edit => Message::Edit(Edit::from_bytes(number, second)?),
        Kind::GroupMode => Message::GroupMode {
            total: number,
            id: second,
        },
        Kind::SetBank => Message::SetBank(number),
        Kind::BusEdit => Message::BusEdit(BusEdit::from_bytes(bytes)?),
        Kind::UnlockBank => Message::UnlockBank,
        Kind::EditBuffer => Message::EditBuffer(patch()),
        Kind::Store => Message::Store {
            number,
            bank: second,
            to: Target::try_from(third)?,
        },
    })
}

/// The first packed bytes, as many as a dump has.
fn first<const N: usize>(packed: &[u8; Master::LENGTH]) -> [u8; N] {
    *packed.first_chunk().expect("a master is the longest dump")
}

/// The first message that starts at `place` or later, if there is one.
///
/// ```
/// use matrix1000::{report_at, Kind};
///
/// let input = [0x41, 0xF0, 0xF7, 0xF0, 0x10, 0x06, 0x06, 0x15, 0x7F, 0xF7];
/// let report = report_at(&input, 2).unwrap();
/// assert_eq!((report.range(), report.kind), (3..10, Ok(Kind::Edit)));
/// assert_eq!(report_at(&input, 10), None);
/// ```
///
/// Active Sensing inside a message, which a noisy line sends, is dropped and counted:
///
/// ```
/// use matrix1000::{report_at, Kind};
///
/// let input = [0xFE, 0xF0, 0x10, 0x06, 0xFE, 0x06, 0x15, 0x7F, 0xFE, 0xF7, 0xFE];
/// let report = report_at(&input, 0).unwrap();
/// assert_eq!((report.range(), report.kind, report.noise), (1..10, Ok(Kind::Edit), 2));
/// ```
#[must_use]
pub fn report_at(input: &[u8], place: usize) -> Option<Report> {
    Report::within(input, ffi::walk(input, place))
}

/// The reports of a stream: its messages without their records.
///
/// ```
/// use matrix1000::reports;
///
/// let input = [0x41, 0xF0, 0xF7, 0xF0, 0x10, 0x06, 0x06, 0x15, 0x7F, 0xF7, 0xF0];
/// let good = reports(&input).filter(|report| report.kind.is_ok());
/// assert_eq!(good.count(), 1);
/// ```
pub const fn reports(input: &[u8]) -> Reports<'_> {
    Reports {
        input,
        place: 0,
        room: [ffi::EMPTY; ffi::A_CALL],
        given: 0,
        made: 0,
    }
}

/// An iterator over the reports of a stream, which it takes from the library eight at a time. Made by
/// [`reports`].
#[derive(Clone, Debug)]
#[must_use = "iterators are lazy"]
pub struct Reports<'a> {
    input: &'a [u8],
    /// Where the library goes on.
    place: usize,
    room: [ffi::Flat; ffi::A_CALL],
    given: usize,
    made: usize,
}

impl Iterator for Reports<'_> {
    type Item = Report;

    fn next(&mut self) -> Option<Report> {
        if self.given == self.made {
            let listed = ffi::reports(self.input, self.place, self.room.as_flattened_mut());
            self.made = listed.count;
            self.place = listed.next;
            self.given = 0;
        }
        let report = *self.room[..self.made].get(self.given)?;
        self.given += 1;
        Report::within(self.input, report.into())
    }
}

// A call that made none makes none again.
impl FusedIterator for Reports<'_> {}

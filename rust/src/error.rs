//! Refusals.

use std::{fmt, io};

use crate::ffi;
use crate::{Bank, Format, Kind, Master, Parameter, Patch, Reader, Split, Unit};

/// Why something was refused: the register's number with its detail and value, and in print a sentence
/// that says what was found and what is expected.
///
/// ```
/// use matrix1000::{Error, NotAllowed, Patch};
///
/// let mut bytes = Patch::default().to_bytes();
/// bytes[19] = 0xDF;
/// let error = Patch::try_from(bytes).unwrap_err();
/// assert!(matches!(error, Error::OutOfRange { place: 19, value: -33, .. }));
/// assert_eq!((error.number(), error.detail(), error.value()), (11, 19, -33));
/// assert_eq!(
///     error.to_string(),
///     "-33 is out of range for DCO 2 Detune, byte 19 of the patch: -32 to 31"
/// );
///
/// let error = Patch::default().set_name("Bass 1  ").unwrap_err();
/// assert_eq!(error, Error::NotAllowed(NotAllowed::Character('a')));
/// assert_eq!(error.number(), 8);
/// ```
#[derive(Clone, Copy, Debug, PartialEq, Eq, Hash)]
#[non_exhaustive]
pub enum Error {
    /// 1: there is no message.
    NoMessage,
    /// 2: the input ends inside the message.
    Cut,
    /// 3: another status byte stands inside the message.
    Interrupted,
    /// 4: the message is another manufacturer's, or empty.
    OtherMaker,
    /// 5: the message is for another device, or for none.
    OtherDevice,
    /// 6: the opcode is not among the eleven, or there is none.
    OtherOpcode,
    /// 7: the length is wrong.
    WrongLength(Length),
    /// 8: a number or character is not allowed.
    NotAllowed(NotAllowed),
    /// 9: a data byte is above 15.
    #[non_exhaustive]
    WideData {
        /// The first one's index in the data.
        index: usize,
    },
    /// 10: the sum byte differs from the sum of the data.
    WrongSum,
    /// 11: a field is out of range.
    #[non_exhaustive]
    OutOfRange {
        /// Whose field it is: a patch's, for an edit too, or a split's.
        format: Format,
        /// The lowest such byte place.
        place: usize,
        /// The value there, with its sign where the field has one: the one found, the one that an
        /// edit as it is sent would store, or the one asked for.
        value: i16,
    },
    /// 12: a bus has a source and no destination, or a destination and no source.
    #[non_exhaustive]
    HalfUsed {
        /// The lowest such bus.
        bus: usize,
    },
    /// 13: the output is too short.
    #[non_exhaustive]
    NoRoom {
        /// How many bytes are to be written.
        needed: usize,
        /// How many there is room for.
        given: usize,
    },
    /// 16: the two patches have different names, and no edit reaches a name.
    #[non_exhaustive]
    OtherName {
        /// The name of the patch that is to be edited, as text.
        from: [u8; Patch::NAME_LENGTH],
        /// The name of the patch that it is to become, as text.
        to: [u8; Patch::NAME_LENGTH],
    },
    /// 20: the list of edits is not accepted.
    NotAccepted,
    /// 21: a stream would be longer than a [`Reader`] takes.
    #[non_exhaustive]
    TooMany {
        /// How many bytes were taken so far.
        taken: usize,
        /// How many were fed behind them.
        given: usize,
    },
}

/// What has a wrong length, and how many bytes were found.
#[derive(Clone, Copy, Debug, PartialEq, Eq, Hash)]
#[non_exhaustive]
pub enum Length {
    /// A message, without real time.
    Message {
        /// What its opcode says it is.
        kind: Kind,
        /// Its length, F0H and F7H included.
        found: usize,
    },
    /// The packed bytes of a patch.
    Patch(usize),
    /// The packed bytes of a split.
    Split(usize),
    /// The packed bytes of a bank.
    Bank(usize),
    /// The packed bytes of a master.
    Master(usize),
    /// The text of a patch's name.
    Name(usize),
    /// The text of a split's name.
    SplitName(usize),
}

/// What is not allowed where it was found.
#[derive(Clone, Copy, Debug, PartialEq, Eq, Hash)]
#[non_exhaustive]
pub enum NotAllowed {
    /// As the number of a patch.
    PatchNumber(u8),
    /// As the number of a split.
    SplitNumber(u8),
    /// As the version of a master.
    Version(u8),
    /// As the type of a request.
    RequestType(u8),
    /// As the number of a request that asks for no single patch.
    RequestNumber(u8),
    /// As the total of a group: how many units it has.
    Total(u8),
    /// As the number of a unit in its group.
    UnitNumber(u8),
    /// As a bank.
    Bank(u8),
    /// As the ID of a store message.
    Target(u8),
    /// Behind the opcode of a patch to the edit buffer.
    Zero(u8),
    /// As a parameter number.
    Parameter(u8),
    /// As a bus.
    Bus(usize),
    /// As the value of an edit: more than seven bits.
    Value(u8),
    /// As the amount of an edit: more than seven bits.
    Amount(u8),
    /// In a name.
    Character(char),
}

/// A refusal of which the register does not say what it speaks of. Whoever called does.
#[derive(Clone, Copy)]
pub(crate) enum Bare {
    /// 7.
    Length,
    /// 8.
    Number,
    /// 11, with the detail and the value.
    Field { place: usize, value: i16 },
    /// 13.
    Room,
    /// 16.
    Names,
    /// 21.
    Stream,
}

impl Error {
    /// The register's number: 1 to 13, 16, 20 or 21.
    #[must_use]
    pub const fn number(&self) -> u8 {
        match self {
            Self::NoMessage => 1,
            Self::Cut => 2,
            Self::Interrupted => 3,
            Self::OtherMaker => 4,
            Self::OtherDevice => 5,
            Self::OtherOpcode => 6,
            Self::WrongLength(_) => 7,
            Self::NotAllowed(_) => 8,
            Self::WideData { .. } => 9,
            Self::WrongSum => 10,
            Self::OutOfRange { .. } => 11,
            Self::HalfUsed { .. } => 12,
            Self::NoRoom { .. } => 13,
            Self::OtherName { .. } => 16,
            Self::NotAccepted => 20,
            Self::TooMany { .. } => 21,
        }
    }

    /// The index, place or bus with numbers 9, 11 and 12, else 0.
    #[must_use]
    pub const fn detail(&self) -> usize {
        match *self {
            Self::WideData { index } => index,
            Self::OutOfRange { place, .. } => place,
            Self::HalfUsed { bus } => bus,
            _ => 0,
        }
    }

    /// The value that is out of range with number 11, else 0.
    #[must_use]
    pub const fn value(&self) -> i16 {
        match *self {
            Self::OutOfRange { value, .. } => value,
            _ => 0,
        }
    }

    /// The one place where an outcome is taken over: its detail where the call was done, else its
    /// refusal.
    pub(crate) fn check(
        outcome: ffi::Outcome,
        about: impl FnOnce(Bare) -> Self,
    ) -> Result<usize, Self> {
        let ffi::Outcome {
            answer,
            value,
            detail,
        } = outcome;
        Err(match answer {
            0 => return Ok(detail),
            1 => Self::NoMessage,
            2 => Self::Cut,
            3 => Self::Interrupted,
            4 => Self::OtherMaker,
            5 => Self::OtherDevice,
            6 => Self::OtherOpcode,
            7 => about(Bare::Length),
            8 => about(Bare::Number),
            9 => Self::WideData { index: detail },
            10 => Self::WrongSum,
            11 => about(Bare::Field {
                place: detail,
                value,
            }),
            12 => Self::HalfUsed { bus: detail },
            13 => about(Bare::Room),
            16 => about(Bare::Names),
            20 => Self::NotAccepted,
            21 => about(Bare::Stream),
            _ => unreachable!("the register has no number {answer}"),
        })
    }

    /// Of a writer of edits, operations or patches that was lent no room: 13 says that every test before
    /// it was passed.
    pub(crate) fn tested(
        outcome: ffi::Outcome,
        about: impl FnOnce(Bare) -> Self,
    ) -> Result<(), Self> {
        match outcome.answer {
            13 => Ok(()),
            _ => Self::check(outcome, |bare| Format::Patch.about(bare, about)).map(drop),
        }
    }
}

impl fmt::Display for Error {
    fn fmt(&self, f: &mut fmt::Formatter<'_>) -> fmt::Result {
        match self {
            Self::NoMessage => f.write_str("there is no message"),
            Self::Cut => f.write_str("the input ends inside the message"),
            Self::Interrupted => f.write_str("another MIDI message came before this one was over"),
            Self::OtherMaker => f.write_str("the message is another manufacturer's, or empty"),
            Self::OtherDevice => f.write_str("the message is for another device, or for none"),
            Self::OtherOpcode => f.write_str("the message is not of a kind that is read here"),
            Self::WrongLength(length) => length.fmt(f),
            Self::NotAllowed(what) => what.fmt(f),
            Self::WideData { index } => write!(f, "data byte {index} is above 15"),
            Self::WrongSum => f.write_str("the checksum does not fit the data"),
            Self::OutOfRange {
                format,
                place,
                value,
            } => {
                write!(f, "{value} is out of range for ")?;
                if *place >= format.length() {
                    return write!(f, "byte {place} of the {format}");
                }
                let (least, greatest) = format.range_at(*place).into_inner();
                let what = format.field_at(*place);
                write!(f, "{what}, byte {place} of the {format}: {least} to {greatest}")
            }
            Self::HalfUsed { bus } => write!(
                f,
                "modulation bus {bus} is half used: source and destination are both zero or both not"
            ),
            Self::NoRoom { needed, given } => {
                write!(f, "the output has {given} bytes, and {needed} are needed")
            }
            Self::OtherName { from, to } => {
                let [from, to] = [from, to].map(|name| String::from_utf8_lossy(name));
                write!(
                    f,
                    "the two patches have different names, {from:?} and {to:?}, \
                     and no edit reaches a name"
                )
            }
            Self::NotAccepted => f.write_str(
                "the list of edits is not accepted: it has something other than allowed edits as \
                 they are written, or ends in another patch",
            ),
            Self::TooMany { taken, given } => write!(
                f,
                "a stream has at most {} bytes: {given} behind the {taken} taken are too many",
                Reader::LONGEST
            ),
        }
    }
}

impl fmt::Display for Length {
    fn fmt(&self, f: &mut fmt::Formatter<'_>) -> fmt::Result {
        match self {
            Self::Message { kind, found } => {
                let length = kind.length();
                let a = if *kind == Kind::UnlockBank { "an" } else { "a" };
                write!(f, "{a} {kind} message has {length} bytes, not {found}")
            }
            Self::Patch(found) => write!(f, "a patch has {} bytes, not {found}", Patch::LENGTH),
            Self::Split(found) => write!(f, "a split has {} bytes, not {found}", Split::LENGTH),
            Self::Bank(found) => write!(
                f,
                "a bank has {} bytes for each of at most {} patches, not {found} in all",
                Patch::LENGTH,
                Bank::PATCHES
            ),
            Self::Master(found) => write!(f, "a master has {} bytes, not {found}", Master::LENGTH),
            Self::Name(found) => write!(
                f,
                "a patch's name has {} bytes, filled up with spaces, not {found}",
                Patch::NAME_LENGTH
            ),
            Self::SplitName(found) => write!(
                f,
                "a split's name has {} bytes, filled up with spaces, not {found}",
                Split::NAME_LENGTH
            ),
        }
    }
}

impl fmt::Display for NotAllowed {
    fn fmt(&self, f: &mut fmt::Formatter<'_>) -> fmt::Result {
        match self {
            Self::PatchNumber(found) => {
                let last = Bank::PATCHES - 1;
                write!(f, "patch number {found} is not allowed: 0 to {last}")
            }
            Self::SplitNumber(found) => {
                let last = Split::COUNT - 1;
                write!(f, "split number {found} is not allowed: 0 to {last}")
            }
            Self::Version(found) => write!(f, "version {found} of a master is not allowed: 3"),
            Self::RequestType(found) => {
                write!(f, "type {found} of a request is not allowed: 0, 1, 3 or 4")
            }
            Self::RequestNumber(found) => write!(
                f,
                "number {found} of a request that asks for no single patch is not allowed: 0"
            ),
            Self::Total(found) => {
                let most = Unit::GROUP;
                write!(f, "group total {found} is not allowed: 2 to {most}")
            }
            Self::UnitNumber(found) => {
                let last = Unit::GROUP - 1;
                write!(f, "unit number {found} is not allowed: 0 to {last}")
            }
            Self::Bank(found) => {
                let last = Unit::BANKS - 1;
                write!(f, "bank {found} is not allowed: 0 to {last}")
            }
            Self::Target(found) => {
                let last = Unit::GROUP - 1;
                write!(
                    f,
                    "ID {found} of a store message is not allowed: 0 to {last}, or 127 for any unit"
                )
            }
            Self::Zero(found) => {
                let kind = Kind::EditBuffer;
                write!(f, "{found} behind the opcode of a {kind} is not allowed: 0")
            }
            Self::Parameter(found) => {
                let count = Parameter::all().count();
                write!(f, "parameter {found} is not one of the {count} of a patch")
            }
            Self::Bus(found) => {
                let last = Patch::BUSES - 1;
                write!(f, "bus {found} is not allowed: 0 to {last}")
            }
            Self::Value(found) => write!(f, "value byte {found} is not allowed: 0 to 127"),
            Self::Amount(found) => write!(f, "amount byte {found} is not allowed: 0 to 127"),
            Self::Character(found) => write!(
                f,
                "{found:?} is not allowed in a name: space to underscore, so no small letters"
            ),
        }
    }
}

impl std::error::Error for Error {}

impl From<Error> for io::Error {
    fn from(error: Error) -> Self {
        Self::new(io::ErrorKind::InvalidInput, error)
    }
}

/// Why a bank was refused, and for which patch.
#[derive(Clone, Copy, Debug, PartialEq, Eq, Hash)]
#[non_exhaustive]
pub struct BankError {
    /// The number of the lowest bad patch with [`Error::OutOfRange`] and [`Error::HalfUsed`], else 0.
    pub patch: usize,
    /// The refusal.
    pub error: Error,
}

impl fmt::Display for BankError {
    fn fmt(&self, f: &mut fmt::Formatter<'_>) -> fmt::Result {
        let Self { patch, error } = self;
        match error {
            Error::OutOfRange { .. } | Error::HalfUsed { .. } => {
                write!(f, "patch {patch} of the bank: {error}")
            }
            _ => error.fmt(f),
        }
    }
}

impl std::error::Error for BankError {
    fn source(&self) -> Option<&(dyn std::error::Error + 'static)> {
        Some(&self.error)
    }
}

//! The numbers the register prints, and the shapes in which routines give them.

/// Done.
pub const DONE: u8 = 0;
/// No F0H at or after the place.
pub const NO_MESSAGE: u8 = 1;
/// The input ends inside the message.
pub const CUT: u8 = 2;
/// A status byte other than F7H stands inside the message.
pub const INTERRUPTED: u8 = 3;
/// The first byte after F0H isn't 10H.
pub const OTHER_MANUFACTURER: u8 = 4;
/// The next isn't 06H.
pub const OTHER_DEVICE: u8 = 5;
/// The opcode isn't among the eleven.
pub const OTHER_OPCODE: u8 = 6;
/// Wrong length, of a message or of something lent.
pub const WRONG_LENGTH: u8 = 7;
/// A patch or split number, version, zero, parameter, bus, name character, value or amount not
/// allowed; or a byte of an operation.
pub const NOT_ALLOWED: u8 = 8;
/// A data byte above 15.
pub const WIDE_DATA: u8 = 9;
/// The sum byte differs from the computed sum.
pub const WRONG_SUM: u8 = 10;
/// A field out of range.
pub const OUT_OF_RANGE: u8 = 11;
/// A bus half used.
pub const HALF_USED: u8 = 12;
/// The lent output is too short.
pub const TOO_SHORT: u8 = 13;
// 14 is withdrawn.
/// A stored file isn't of its form, old or new.
pub const NOT_OF_THE_FORM: u8 = 15;
/// The names of two patches differ, and no edit reaches a name.
pub const OTHER_NAME: u8 = 16;
/// A list of edits isn't accepted.
pub const NOT_ACCEPTED: u8 = 20;
/// A feed and the bytes taken before it are more than the cable reader counts.
pub const STREAM_TOO_LONG: u8 = 21;

/// What a routine answers.
#[derive(Clone, Copy, Debug, PartialEq, Eq)]
#[must_use]
pub struct Outcome {
    /// One of the register's numbers.
    pub answer: u8,
    /// What the table names for that number, else 0.
    pub detail: usize,
    /// With answer 11 the value found, with its sign where the field has one; else 0.
    pub value: i16,
}

/// What the bank writer and the stored form answer: an outcome with a place.
#[derive(Clone, Copy, Debug, PartialEq, Eq)]
#[must_use]
pub struct PlacedOutcome {
    /// One of the register's numbers.
    pub answer: u8,
    /// What the table names for that number, else 0.
    pub detail: usize,
    /// With answer 11 the value found, with its sign where the field has one; else 0.
    pub value: i16,
    /// Of a bank, the number of the lowest bad patch; of a stored file, the start of the message or
    /// record that keeps its number; else 0.
    pub place: usize,
}

/// The name that the bank writer's answer had before stored files gave places too.
pub type BankOutcome = PlacedOutcome;

/// What the walk says of one message.
#[derive(Clone, Copy, Debug, PartialEq, Eq)]
#[must_use]
pub struct Report {
    /// The place of the message's F0H.
    pub start: usize,
    /// The place behind the message.
    pub end: usize,
    /// One of the register's numbers.
    pub answer: u8,
    /// The opcode with answer 0, else what the table names.
    pub detail: usize,
    /// With answer 11 the value found, with its sign where the field has one; else 0.
    pub value: i16,
    /// How many bytes F8H..FFH stand from the start to the end, which is not included.
    pub noise: usize,
}

/// What reading a record says of one message.
#[derive(Clone, Copy, Debug, PartialEq, Eq)]
#[must_use]
pub struct Reading {
    /// The place of the message's F0H.
    pub start: usize,
    /// The place behind the message.
    pub end: usize,
    /// One of the register's numbers.
    pub answer: u8,
    /// The opcode with answer 0, else what the table names.
    pub detail: usize,
    /// With answer 11 the value found, with its sign where the field has one; else 0.
    pub value: i16,
    /// How many bytes F8H..FFH stand from the start to the end, which is not included.
    pub noise: usize,
    /// The number of a patch or a split, or the bytes of an edit or an operation, as received; zero
    /// elsewhere.
    pub bytes: [u8; 4],
}

/// What is answered about a parameter's range.
#[derive(Clone, Copy, Debug, PartialEq, Eq)]
#[must_use]
pub struct RangeOutcome {
    /// 0, or 8 for a number that is no parameter's.
    pub answer: u8,
    /// Always 0.
    pub detail: usize,
    /// Always 0.
    pub value: i16,
    /// The least value, with its sign; 0 when refused.
    pub least: i16,
    /// The greatest value; 0 when refused.
    pub greatest: i16,
}

/// What is answered about the value a parameter has in a patch.
#[derive(Clone, Copy, Debug, PartialEq, Eq)]
#[must_use]
pub struct ValueOutcome {
    /// One of the register's numbers.
    pub answer: u8,
    /// What the table names for that number, else 0.
    pub detail: usize,
    /// With answer 11 the value found, with its sign where the field has one; else 0.
    pub value: i16,
    /// The value the parameter has, with its sign; 0 when refused.
    pub held: i16,
}

/// An answer other than 0, with its detail and with the value found.
#[derive(Clone, Copy, Debug, PartialEq, Eq)]
pub(crate) struct Refusal {
    pub answer: u8,
    pub detail: usize,
    pub value: i16,
}

impl Refusal {
    /// A refusal for which the table names no detail.
    pub const fn plain(answer: u8) -> Self {
        Self::at(answer, 0)
    }

    /// A refusal with its detail.
    pub const fn at(answer: u8, detail: usize) -> Self {
        Self {
            answer,
            detail,
            value: 0,
        }
    }

    /// 11 with the place and the value found there.
    pub const fn found(place: usize, value: i16) -> Self {
        Self {
            answer: OUT_OF_RANGE,
            detail: place,
            value,
        }
    }

    /// The same with its place.
    pub const fn placed(self, place: usize) -> Placed {
        Placed {
            place,
            refusal: self,
        }
    }
}

/// A refusal with its place.
#[derive(Clone, Copy, Debug, PartialEq, Eq)]
pub(crate) struct Placed {
    pub place: usize,
    pub refusal: Refusal,
}

// The place is 0 where none is named.
impl From<Refusal> for Placed {
    fn from(refusal: Refusal) -> Self {
        refusal.placed(0)
    }
}

impl From<Result<usize, Refusal>> for Outcome {
    fn from(result: Result<usize, Refusal>) -> Self {
        match result {
            Ok(detail) => Self {
                answer: DONE,
                detail,
                value: 0,
            },
            Err(refusal) => Self {
                answer: refusal.answer,
                detail: refusal.detail,
                value: refusal.value,
            },
        }
    }
}

impl From<Result<usize, Placed>> for PlacedOutcome {
    fn from(result: Result<usize, Placed>) -> Self {
        match result {
            Ok(detail) => Self {
                answer: DONE,
                detail,
                value: 0,
                place: 0,
            },
            Err(Placed { place, refusal }) => Self {
                answer: refusal.answer,
                detail: refusal.detail,
                value: refusal.value,
                place,
            },
        }
    }
}

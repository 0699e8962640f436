//! Operations: what a unit is asked for, and to which units a store goes.

use std::fmt;

use crate::ffi;
use crate::{Error, Kind, NotAllowed};

/// What a request for data (04H) asks for.
///
/// ```
/// use matrix1000::{Error, Message, Request};
///
/// let sent = Message::from(Request::Patch(99)).to_vec()?;
/// assert_eq!(sent, [0xF0, 0x10, 0x06, 0x04, 1, 99, 0xF7]);
/// assert_eq!(Message::read(&sent), Ok(Message::Request(Request::Patch(99))));
///
/// let refused = Message::from(Request::Patch(100)).to_vec().unwrap_err();
/// assert_eq!(refused.to_string(), "patch number 100 is not allowed: 0 to 99");
/// # Ok::<(), Error>(())
/// ```
#[derive(Clone, Copy, Debug, PartialEq, Eq, Hash)]
pub enum Request {
    /// All patches of the current bank, and the master parameters.
    All,
    /// The patch of a number, 0 to 99, of the current bank.
    Patch(u8),
    /// The master parameters.
    Master,
    /// The edit buffer.
    EditBuffer,
}

/// Which units a store message (0EH) is for.
///
/// ```
/// use matrix1000::{Error, Message, Target};
///
/// // The edit buffer of every unit of a group, into patch 7 of bank 3.
/// let store = Message::Store { number: 7, bank: 3, to: Target::Any };
/// assert_eq!(store.to_vec()?, [0xF0, 0x10, 0x06, 0x0E, 7, 3, 0x7F, 0xF7]);
///
/// let store = Message::Store { number: 7, bank: 3, to: Target::Unit(6) };
/// let refused = store.to_vec().unwrap_err();
/// assert_eq!(refused.to_string(), "unit number 6 is not allowed: 0 to 5");
/// # Ok::<(), Error>(())
/// ```
#[derive(Clone, Copy, Debug, PartialEq, Eq, Hash)]
pub enum Target {
    /// The unit of a number, 0 to 5, in its group; with 0 also a unit whose group mode is off.
    Unit(u8),
    /// Any unit in group mode.
    Any,
}

impl Request {
    /// Type and number, as they are sent.
    #[must_use]
    pub const fn bytes(self) -> [u8; 2] {
        match self {
            Self::All => [0, 0],
            Self::Patch(number) => [1, number],
            Self::Master => [3, 0],
            Self::EditBuffer => [4, 0],
        }
    }
}

impl Target {
    /// The ID that is sent to any unit.
    const ANY: u8 = 0x7F;

    /// The ID, as it is sent.
    ///
    /// # Errors
    ///
    /// [`Error::NotAllowed`] for a number that no unit has. 127 is one too: sent, it would go to any.
    pub fn id(self) -> Result<u8, Error> {
        let id = match self {
            Self::Unit(number) => number,
            Self::Any => Self::ANY,
        };
        if Self::try_from(id) == Ok(self) {
            return Ok(id);
        }
        Err(Error::NotAllowed(NotAllowed::UnitNumber(id)))
    }
}

/// A request as it is sent: type and number.
impl TryFrom<[u8; 2]> for Request {
    type Error = Error;

    fn try_from([kind, number]: [u8; 2]) -> Result<Self, Error> {
        let tested = ffi::write_request_data(kind, number, &mut []);
        let behind = [kind, number, 0];
        Error::tested(tested, |_| Kind::Request.not_allowed(behind))?;
        let requests = [
            Self::All,
            Self::Patch(number),
            Self::Master,
            Self::EditBuffer,
        ];
        let found = requests
            .into_iter()
            .find(|request| request.bytes() == [kind, number]);
        Ok(found.unwrap_or_else(|| unreachable!("no request of type {kind} is accepted")))
    }
}

/// A target as it is sent: the ID.
impl TryFrom<u8> for Target {
    type Error = Error;

    fn try_from(id: u8) -> Result<Self, Error> {
        let tested = ffi::write_store_edit_buffer(0, 0, id, &mut []);
        Error::tested(tested, |_| Kind::Store.not_allowed([0, 0, id]))?;
        Ok(match id {
            Self::ANY => Self::Any,
            number => Self::Unit(number),
        })
    }
}

/// Which of the two bytes of a request the library does not take.
pub(crate) fn in_request([kind, number, _]: [u8; 3]) -> NotAllowed {
    let [of_a_patch, _] = Request::Patch(0).bytes();
    if refused(ffi::write_request_data(kind, 0, &mut [])) {
        NotAllowed::RequestType(kind)
    } else if kind == of_a_patch {
        NotAllowed::PatchNumber(number)
    } else {
        NotAllowed::RequestNumber(number)
    }
}

/// Which of the two bytes of a group message the library does not take.
pub(crate) fn in_group_mode([total, id, _]: [u8; 3]) -> NotAllowed {
    if refused(ffi::write_group_mode(total, 0, &mut [])) {
        NotAllowed::Total(total)
    } else {
        NotAllowed::UnitNumber(id)
    }
}

/// Which of the three bytes of a store message the library does not take.
pub(crate) fn in_store([number, bank, id]: [u8; 3]) -> NotAllowed {
    if refused(ffi::write_store_edit_buffer(number, 0, 0, &mut [])) {
        NotAllowed::PatchNumber(number)
    } else if refused(ffi::write_store_edit_buffer(0, bank, 0, &mut [])) {
        NotAllowed::Bank(bank)
    } else {
        NotAllowed::Target(id)
    }
}

/// Whether a writer refused a number.
const fn refused(tested: ffi::Outcome) -> bool {
    tested.answer == 8
}

impl fmt::Display for Request {
    fn fmt(&self, f: &mut fmt::Formatter<'_>) -> fmt::Result {
        match self {
            Self::All => f.write_str("all patches and the master parameters"),
            Self::Patch(number) => write!(f, "patch {number}"),
            Self::Master => f.write_str("the master parameters"),
            Self::EditBuffer => f.write_str("the edit buffer"),
        }
    }
}

impl fmt::Display for Target {
    fn fmt(&self, f: &mut fmt::Formatter<'_>) -> fmt::Result {
        match self {
            Self::Unit(number) => write!(f, "unit {number}"),
            Self::Any => f.write_str("any unit"),
        }
    }
}

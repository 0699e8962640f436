//! Messages, and writing them.

use std::{fmt, io};

use crate::error::Bare;
use crate::ffi;
use crate::operations::{in_group_mode, in_request, in_store};
use crate::stream::messages;
use crate::{
    BusEdit, Edit, Error, Format, Length, NotAllowed, Patch, PatchEdit, Request, Split, Target,
};

/// The kinds of message.
#[derive(Clone, Copy, Debug, PartialEq, Eq, Hash)]
#[non_exhaustive]
pub enum Kind {
    /// A single patch with its number (01H).
    Patch,
    /// A split of a Matrix-6R with its number (02H).
    Split,
    /// The master parameters (03H).
    Master,
    /// A request for data (04H).
    Request,
    /// A remote edit (06H).
    Edit,
    /// Group mode (07H).
    GroupMode,
    /// Set bank (0AH).
    SetBank,
    /// A matrix modulation edit (0BH).
    BusEdit,
    /// Unlock bank (0CH).
    UnlockBank,
    /// A patch to the edit buffer (0DH).
    EditBuffer,
    /// Store edit buffer (0EH).
    Store,
}

impl Kind {
    /// Every kind, by rising opcode.
    const ALL: [Self; 11] = [
        Self::Patch,
        Self::Split,
        Self::Master,
        Self::Request,
        Self::Edit,
        Self::GroupMode,
        Self::SetBank,
        Self::BusEdit,
        Self::UnlockBank,
        Self::EditBuffer,
        Self::Store,
    ];

    /// The opcode.
    #[must_use]
    pub const fn opcode(self) -> u8 {
        match self {
            Self::Patch => 0x01,
            Self::Split => 0x02,
            Self::Master => 0x03,
            Self::Request => 0x04,
            Self::Edit => 0x06,
            Self::GroupMode => 0x07,
            Self::SetBank => 0x0A,
            Self::BusEdit => 0x0B,
            Self::UnlockBank => 0x0C,
            Self::EditBuffer => 0x0D,
            Self::Store => 0x0E,
        }
    }

    /// The number of bytes in a message, F0H and F7H included.
    #[must_use]
    pub const fn length(self) -> usize {
        match self {
            Self::Patch | Self::EditBuffer => 275,
            Self::Split => 43,
            Self::Master => 351,
            Self::Request | Self::Edit | Self::GroupMode => 7,
            Self::SetBank => 6,
            Self::BusEdit => 9,
            Self::UnlockBank => 5,
            Self::Store => 8,
        }
    }

    /// The format of the fields that are tested in reading: for an edit, of those it would set. A
    /// master and an operation have none.
    pub(crate) const fn format(self) -> Option<Format> {
        match self {
            Self::Patch | Self::Edit | Self::BusEdit | Self::EditBuffer => Some(Format::Patch),
            Self::Split => Some(Format::Split),
            _ => None,
        }
    }

    /// 8, with what is not allowed where one of the bytes behind the opcode is refused.
    pub(crate) fn not_allowed(self, behind: [u8; 3]) -> Error {
        let [first, ..] = behind;
        Error::NotAllowed(match self {
            Self::Patch => NotAllowed::PatchNumber(first),
            Self::Split => NotAllowed::SplitNumber(first),
            Self::Master => NotAllowed::Version(first),
            Self::Request => in_request(behind),
            Self::Edit => NotAllowed::Parameter(first),
            Self::GroupMode => in_group_mode(behind),
            Self::SetBank => NotAllowed::Bank(first),
            Self::BusEdit => NotAllowed::Bus(first.into()),
            Self::UnlockBank => unreachable!("there is nothing to refuse behind the opcode"),
            Self::EditBuffer => NotAllowed::Zero(first),
            Self::Store => in_store(behind),
        })
    }
}

/// By the opcode; any other is refused by 6.
impl TryFrom<u8> for Kind {
    type Error = Error;

    fn try_from(opcode: u8) -> Result<Self, Error> {
        let found = Self::ALL.into_iter().find(|kind| kind.opcode() == opcode);
        found.ok_or(Error::OtherOpcode)
    }
}

impl fmt::Display for Kind {
    fn fmt(&self, f: &mut fmt::Formatter<'_>) -> fmt::Result {
        f.pad(match self {
            Self::Patch => "single patch",
            Self::Split => "split",
            Self::Master => "master parameters",
            Self::Request => "request data",
            Self::Edit => "remote edit",
            Self::GroupMode => "group mode",
            Self::SetBank => "set bank",
            Self::BusEdit => "matrix modulation edit",
            Self::UnlockBank => "unlock bank",
            Self::EditBuffer => "patch to edit buffer",
            Self::Store => "store edit buffer",
        })
    }
}

/// The master parameters: 172 packed bytes, each of which may be any.
#[derive(Clone, Copy, Debug, PartialEq, Eq, Hash)]
pub struct Master([u8; Master::LENGTH]);

impl Master {
    /// The number of packed bytes in a master.
    pub const LENGTH: usize = 172;

    /// The packed bytes.
    #[must_use]
    pub const fn as_bytes(&self) -> &[u8; Self::LENGTH] {
        &self.0
    }

    /// The packed bytes.
    #[must_use]
    pub const fn to_bytes(self) -> [u8; Self::LENGTH] {
        self.0
    }
}

impl From<[u8; Master::LENGTH]> for Master {
    fn from(bytes: [u8; Master::LENGTH]) -> Self {
        Self(bytes)
    }
}

impl TryFrom<&[u8]> for Master {
    type Error = Error;

    fn try_from(bytes: &[u8]) -> Result<Self, Error> {
        let length = Length::Master(bytes.len());
        let bytes = bytes.try_into();
        bytes.map(Self).map_err(|_| Error::WrongLength(length))
    }
}

impl AsRef<[u8]> for Master {
    fn as_ref(&self) -> &[u8] {
        &self.0
    }
}

/// A message with its record.
///
/// A number in one that was read is allowed. One that is put in is tested when the message is written.
#[derive(Clone, Copy, Debug, PartialEq, Eq, Hash)]
#[non_exhaustive]
pub enum Message {
    /// A single patch (01H).
    Patch {
        /// The patch's number, 0 to 99.
        number: u8,
        /// The patch.
        patch: Patch,
    },
    /// A split of a Matrix-6R (02H).
    Split {
        /// The split's number, 0 to 49.
        number: u8,
        /// The split.
        split: Split,
    },
    /// The master parameters (03H).
    Master(Master),
    /// A request for data (04H).
    Request(Request),
    /// A remote edit (06H).
    Edit(Edit),
    /// Group mode (07H), which numbers a unit. Each of the two has its range by itself.
    GroupMode {
        /// How many units the group has, 2 to 6.
        total: u8,
        /// The number that the unit gets, 0 to 5.
        id: u8,
    },
    /// Set bank (0AH), which also locks the bank, 0 to 9.
    SetBank(u8),
    /// A matrix modulation edit (0BH).
    BusEdit(BusEdit),
    /// Unlock bank (0CH).
    UnlockBank,
    /// A patch to the edit buffer (0DH).
    EditBuffer(Patch),
    /// Store edit buffer (0EH).
    Store {
        /// The patch's number, 0 to 99.
        number: u8,
        /// The bank, 0 to 9.
        bank: u8,
        /// Which units it is for.
        to: Target,
    },
}

impl Message {
    /// The length of the longest message, the master's.
    pub const LONGEST: usize = Kind::Master.length();

    /// The first message in some bytes.
    ///
    /// # Errors
    ///
    /// [`Error::NoMessage`] where there is none, else why it was refused.
    ///
    /// ```
    /// use matrix1000::{Error, Message};
    ///
    /// let message = Message::read(&[0xF0, 0x10, 0x06, 0x06, 0x15, 0x7F, 0xF7])?;
    /// assert!(matches!(message, Message::Edit(edit) if edit.value() == 127));
    /// assert_eq!(Message::read(&[0xF0, 0x41, 0xF7]), Err(Error::OtherMaker));
    /// # Ok::<(), Error>(())
    /// ```
    pub fn read(bytes: &[u8]) -> Result<Self, Error> {
        match messages(bytes).next() {
            Some(found) => found.message,
            None => Err(Error::NoMessage),
        }
    }

    /// The kind of message.
    #[must_use]
    pub const fn kind(&self) -> Kind {
        match self {
            Self::Patch { .. } => Kind::Patch,
            Self::Split { .. } => Kind::Split,
            Self::Master(_) => Kind::Master,
            Self::Request(_) => Kind::Request,
            Self::Edit(_) => Kind::Edit,
            Self::GroupMode { .. } => Kind::GroupMode,
            Self::SetBank(_) => Kind::SetBank,
            Self::BusEdit(_) => Kind::BusEdit,
            Self::UnlockBank => Kind::UnlockBank,
            Self::EditBuffer(_) => Kind::EditBuffer,
            Self::Store { .. } => Kind::Store,
        }
    }

    /// The message's patch, if it is a dump of one.
    #[must_use]
    pub const fn patch(&self) -> Option<&Patch> {
        match self {
            Self::Patch { patch, .. } | Self::EditBuffer(patch) => Some(patch),
            _ => None,
        }
    }

    /// The message's split, if it is a dump of one.
    #[must_use]
    pub const fn split(&self) -> Option<&Split> {
        match self {
            Self::Split { split, .. } => Some(split),
            _ => None,
        }
    }

    /// Writes the message to the start of an output and gives its length. Bytes behind it are kept.
    ///
    /// # Errors
    ///
    /// [`Error::NotAllowed`] for a number outside its range, [`Error::NoRoom`] for an output that is too
    /// short. The output is then kept.
    pub fn write_to_slice(&self, out: &mut [u8]) -> Result<usize, Error> {
        let given = out.len();
        let written = match self {
            Self::Patch { number, patch } => ffi::write_patch(*number, patch.as_bytes(), out),
            Self::Split { number, split } => ffi::write_split(*number, split.as_bytes(), out),
            Self::Master(master) => ffi::write_master(master.as_bytes(), out),
            Self::Request(request) => {
                let [kind, number] = request.bytes();
                ffi::write_request_data(kind, number, out)
            }
            Self::Edit(edit) => {
                let [parameter, value] = edit.bytes();
                ffi::write_edit(parameter, value, out)
            }
            Self::GroupMode { total, id } => ffi::write_group_mode(*total, *id, out),
            Self::SetBank(bank) => ffi::write_set_bank(*bank, out),
            Self::BusEdit(edit) => ffi::write_bus_edit(edit.bytes(), out),
            Self::UnlockBank => ffi::write_unlock_bank(out),
            Self::EditBuffer(patch) => ffi::write_edit_buffer(patch.as_bytes(), out),
            Self::Store { number, bank, to } => {
                ffi::write_store_edit_buffer(*number, *bank, to.id()?, out)
            }
        };
        Error::check(written, |bare| match bare {
            Bare::Number => self.kind().not_allowed(self.numbers()),
            _ => Error::NoRoom {
                needed: self.kind().length(),
                given,
            },
        })
    }

    /// The numbers behind the opcode that may be refused in writing; zeros behind them.
    fn numbers(&self) -> [u8; 3] {
        match *self {
            Self::Patch { number, .. } | Self::Split { number, .. } => [number, 0, 0],
            Self::Request(request) => {
                let [kind, number] = request.bytes();
                [kind, number, 0]
            }
            Self::GroupMode { total, id } => [total, id, 0],
            Self::SetBank(bank) => [bank, 0, 0],
            // Its target was tested before it.
            Self::Store { number, bank, .. } => [number, bank, 0],
            _ => [0; 3],
        }
    }

    /// Writes the message to a file or anything else that takes bytes, and gives its length.
    ///
    /// # Errors
    ///
    /// The writer's own, and [`Error::NotAllowed`] inside an [`io::Error`] for a number outside its
    /// range, for which nothing is written.
    pub fn write_to<W: io::Write>(&self, mut writer: W) -> io::Result<usize> {
        let mut bytes = [0; Self::LONGEST];
        let length = self.write_to_slice(&mut bytes)?;
        writer.write_all(&bytes[..length])?;
        Ok(length)
    }

    /// The message's bytes.
    ///
    /// # Errors
    ///
    /// [`Error::NotAllowed`] for a number outside its range.
    ///
    /// ```
    /// use matrix1000::{Error, Message, Patch};
    ///
    /// let patch = Patch::default();
    /// let dump = Message::Patch { number: 99, patch }.to_vec()?;
    /// assert_eq!(dump.len(), 275);
    /// assert_eq!(Message::read(&dump)?, Message::Patch { number: 99, patch });
    ///
    /// let refused = Message::Patch { number: 100, patch }.to_vec().unwrap_err();
    /// assert_eq!(refused.to_string(), "patch number 100 is not allowed: 0 to 99");
    /// # Ok::<(), Error>(())
    /// ```
    pub fn to_vec(&self) -> Result<Vec<u8>, Error> {
        to_vec([self])
    }
}

/// The bytes of messages, one after the other.
///
/// Numbered patches and splits keep the numbers they have. (A [`Bank`](crate::Bank) numbers its
/// patches from 0.)
///
/// ```
/// use std::collections::BTreeMap;
/// use matrix1000::{messages, to_vec, Error, Message, Patch};
///
/// // Patches 3 and 7 of a file, of which what stands between was refused.
/// let file = to_vec([(3, Patch::default()), (7, Patch::default())])?;
///
/// // All that is good in it, in its order, written again.
/// let good = messages(&file).filter_map(|found| found.message.ok());
/// assert_eq!(to_vec(good.clone())?, file);
///
/// // Or its patches by their numbers, one of them with another name.
/// let mut patches = BTreeMap::new();
/// for message in good {
///     if let Message::Patch { number, patch } = message {
///         patches.insert(number, patch);
///     }
/// }
/// patches.get_mut(&7).unwrap().set_name("LEAD    ")?;
/// let written = to_vec(&patches)?;
/// assert_eq!((written[4], written[275 + 4]), (3, 7));
/// # Ok::<(), Error>(())
/// ```
///
/// # Errors
///
/// [`Error::NotAllowed`] for a number outside its range.
pub fn to_vec<M: Into<Message>>(messages: impl IntoIterator<Item = M>) -> Result<Vec<u8>, Error> {
    let mut bytes = Vec::new();
    for message in messages {
        let message: Message = message.into();
        let start = bytes.len();
        bytes.resize(start + message.kind().length(), 0);
        message.write_to_slice(&mut bytes[start..])?;
    }
    Ok(bytes)
}

/// Writes messages one after the other, as [`to_vec`] does, to a file or anything else that takes
/// bytes, and gives their length.
///
/// # Errors
///
/// The writer's own, and [`Error::NotAllowed`] inside an [`io::Error`] for a number outside its range.
/// Messages before it are written.
///
/// ```no_run
/// use std::fs::File;
/// use std::io::BufWriter;
/// use matrix1000::{to_writer, Patch};
///
/// let file = BufWriter::new(File::create("lead.syx")?);
/// to_writer(file, [(7, Patch::default())])?;
/// # Ok::<(), std::io::Error>(())
/// ```
pub fn to_writer<W: io::Write, M: Into<Message>>(
    mut writer: W,
    messages: impl IntoIterator<Item = M>,
) -> io::Result<usize> {
    let mut length = 0;
    for message in messages {
        length += message.into().write_to(&mut writer)?;
    }
    writer.flush()?;
    Ok(length)
}

/// As [`Message::read`]: the first message in some bytes.
impl TryFrom<&[u8]> for Message {
    type Error = Error;

    fn try_from(bytes: &[u8]) -> Result<Self, Error> {
        Self::read(bytes)
    }
}

impl From<&Message> for Message {
    fn from(message: &Message) -> Self {
        *message
    }
}

/// What is dumped with a number.
macro_rules! numbered {
    ($kind:ident $record:ident $what:literal) => {
        #[doc = $what]
        impl From<(u8, $kind)> for Message {
            fn from((number, $record): (u8, $kind)) -> Self {
                Self::$kind { number, $record }
            }
        }

        #[doc = $what]
        impl From<(&u8, &$kind)> for Message {
            fn from((&number, &$record): (&u8, &$kind)) -> Self {
                Self::$kind { number, $record }
            }
        }
    };
}

numbered!(Patch patch "A single patch with its number.");
numbered!(Split split "A split with its number.");

impl From<Master> for Message {
    fn from(master: Master) -> Self {
        Self::Master(master)
    }
}

impl From<Request> for Message {
    fn from(request: Request) -> Self {
        Self::Request(request)
    }
}

impl From<Edit> for Message {
    fn from(edit: Edit) -> Self {
        Self::Edit(edit)
    }
}

impl From<BusEdit> for Message {
    fn from(edit: BusEdit) -> Self {
        Self::BusEdit(edit)
    }
}

impl From<PatchEdit> for Message {
    fn from(edit: PatchEdit) -> Self {
        match edit {
            PatchEdit::Parameter(edit) => Self::Edit(edit),
            PatchEdit::Bus(edit) => Self::BusEdit(edit),
        }
    }
}

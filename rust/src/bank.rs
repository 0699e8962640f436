//! Banks.

use std::iter::Map;
use std::{io, slice, vec};

use crate::error::Bare;
use crate::ffi;
use crate::{BankError, Error, Kind, Length, Message, Patch};

/// The packed bytes of a patch.
type Packed = [u8; Patch::LENGTH];

/// A bank as the register has it: 0 to 100 patches end to end, numbered from 0 by where they stand.
///
/// A bank holds no numbers. Patches that were read from dumps and are put into one are numbered anew
/// when they are written, so where one was refused, those behind it move up. To keep their numbers,
/// write the messages themselves, or numbers with patches: [`to_vec`](crate::to_vec) and
/// [`to_writer`](crate::to_writer).
///
/// ```
/// use matrix1000::{messages, Bank, Error, Message, Patch};
///
/// let mut lead = Patch::default();
/// lead.set_name("LEAD    ")?;
/// let bank = Bank::new([Patch::default(), lead])?;
/// let dumps = bank.to_vec();
/// assert_eq!(dumps.len(), 2 * 275);
/// let second = messages(&dumps).nth(1).unwrap();
/// assert_eq!(second.message, Ok(Message::Patch { number: 1, patch: lead }));
/// for patch in &bank {
///     println!("{}", patch.name());
/// }
/// # Ok::<(), Error>(())
/// ```
#[derive(Clone, Debug, Default, PartialEq, Eq, Hash)]
pub struct Bank {
    /// The bytes of tested patches.
    packed: Vec<Packed>,
}

impl Bank {
    /// The greatest number of patches.
    pub const PATCHES: usize = 100;

    /// A bank of these patches.
    ///
    /// # Errors
    ///
    /// [`Error::WrongLength`] for more than 100.
    pub fn new(patches: impl IntoIterator<Item = Patch>) -> Result<Self, Error> {
        // One too many is enough to be refused.
        let patches = patches.into_iter().take(Self::PATCHES + 1);
        let packed = patches.map(Patch::to_bytes).collect::<Vec<_>>();
        Self::tested(packed.as_flattened()).map_err(|refused| refused.error)?;
        Ok(Self { packed })
    }

    /// A bank of patches end to end.
    ///
    /// # Errors
    ///
    /// [`Error::WrongLength`] for a length that is not a multiple of 134 or above 13,400; else the
    /// lowest bad patch's own refusal, with its number.
    ///
    /// ```
    /// use matrix1000::{Bank, Patch};
    ///
    /// let mut bytes = [Patch::default().to_bytes(); 2];
    /// bytes[1][9] = 0xC0;
    /// let refused = Bank::from_bytes(bytes.as_flattened()).unwrap_err();
    /// assert_eq!(refused.patch, 1);
    /// assert_eq!((refused.error.detail(), refused.error.value()), (9, 192));
    /// ```
    pub fn from_bytes(bytes: &[u8]) -> Result<Self, BankError> {
        Self::tested(bytes)?;
        let (patches, _) = bytes.as_chunks();
        Ok(Self {
            packed: patches.to_vec(),
        })
    }

    /// All of the library's tests, by a writer that is lent no room.
    fn tested(bytes: &[u8]) -> Result<(), BankError> {
        let ffi::BankOutcome { outcome, place } = ffi::write_bank(bytes, &mut []);
        let about = |_| Error::WrongLength(Length::Bank(bytes.len()));
        Error::tested(outcome, about).map_err(|error| BankError {
            patch: place,
            error,
        })
    }

    /// How many patches there are.
    #[must_use]
    pub const fn len(&self) -> usize {
        self.packed.len()
    }

    /// Whether there are none.
    #[must_use]
    pub const fn is_empty(&self) -> bool {
        self.packed.is_empty()
    }

    /// The patch of a number.
    #[must_use]
    pub fn get(&self, number: usize) -> Option<Patch> {
        self.packed.get(number).copied().map(Patch::tested)
    }

    /// The patches in the order of their numbers.
    pub fn iter(&self) -> Iter<'_> {
        self.packed.iter().map(|packed| Patch::tested(*packed))
    }

    /// The patches' packed bytes, end to end.
    #[must_use]
    pub fn as_bytes(&self) -> &[u8] {
        self.packed.as_flattened()
    }

    /// Writes the dumps end to end to the start of an output, numbered from 0, and gives their
    /// length, 275 bytes to a patch. Bytes behind them are kept.
    ///
    /// # Errors
    ///
    /// [`Error::NoRoom`] for an output that is too short, which is then kept.
    pub fn write_to_slice(&self, out: &mut [u8]) -> Result<usize, Error> {
        let given = out.len();
        let needed = Kind::Patch.length() * self.len();
        let written = ffi::write_bank(self.as_bytes(), out);
        Error::check(written.outcome, |bare| {
            debug_assert!(matches!(bare, Bare::Room), "a tested bank");
            Error::NoRoom { needed, given }
        })
    }

    /// Writes the dumps end to end, numbered from 0, to a file or anything else that takes bytes, and
    /// gives their length.
    ///
    /// # Errors
    ///
    /// The writer's own.
    pub fn write_to<W: io::Write>(&self, mut writer: W) -> io::Result<usize> {
        let dumps = self.to_vec();
        writer.write_all(&dumps)?;
        Ok(dumps.len())
    }

    /// The dumps end to end, numbered from 0.
    #[must_use]
    pub fn to_vec(&self) -> Vec<u8> {
        let mut out = vec![0; Kind::Patch.length() * self.len()];
        let written = self.write_to_slice(&mut out);
        debug_assert_eq!(written, Ok(out.len()), "a tested bank with room");
        out
    }

    /// The bank as messages.
    pub fn messages(&self) -> impl Iterator<Item = Message> + '_ {
        (0..).zip(self).map(Message::from)
    }
}

/// The patches of a lent bank.
pub type Iter<'a> = Map<slice::Iter<'a, Packed>, fn(&Packed) -> Patch>;
/// The patches of a bank.
pub type IntoIter = Map<vec::IntoIter<Packed>, fn(Packed) -> Patch>;

impl<'a> IntoIterator for &'a Bank {
    type Item = Patch;
    type IntoIter = Iter<'a>;

    fn into_iter(self) -> Iter<'a> {
        self.iter()
    }
}

impl IntoIterator for Bank {
    type Item = Patch;
    type IntoIter = IntoIter;

    fn into_iter(self) -> IntoIter {
        self.packed.into_iter().map(Patch::tested)
    }
}

impl TryFrom<&[u8]> for Bank {
    type Error = BankError;

    fn try_from(bytes: &[u8]) -> Result<Self, BankError> {
        Self::from_bytes(bytes)
    }
}

impl TryFrom<Vec<Patch>> for Bank {
    type Error = Error;

    fn try_from(patches: Vec<Patch>) -> Result<Self, Error> {
        Self::new(patches)
    }
}

impl AsRef<[u8]> for Bank {
    fn as_ref(&self) -> &[u8] {
        self.as_bytes()
    }
}

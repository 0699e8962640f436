//! Lists of edits that turn one patch into another.

use std::fmt;
use std::iter::FusedIterator;

use crate::error::Bare;
use crate::ffi;
use crate::stream::{messages, reports};
use crate::{Error, Kind, Message, Patch, PatchEdit};

impl Patch {
    /// The shortest list of edits that turns this patch into another: one for each field and one for
    /// each modulation bus in which they differ, in the order of the patch's bytes. Between equal
    /// patches there are none.
    ///
    /// # Errors
    ///
    /// [`Error::OtherName`] where the two patches have different names, since no edit reaches a name.
    ///
    /// ```
    /// use matrix1000::{Bus, Error, Parameter, Patch, PatchEdit};
    ///
    /// let lent = Patch::default();
    /// let mut returned = lent;
    /// returned.set(Parameter::VCF_FREQUENCY, 127)?;
    /// returned.set_bus(0, Bus { source: 1, amount: -1, destination: 1 })?;
    ///
    /// // What undoes it, ready to send, and edit by edit.
    /// let edits = returned.edits_to(&lent)?;
    /// assert_eq!(
    ///     edits.as_bytes(),
    ///     [0xF0, 0x10, 6, 6, 21, 0, 0xF7, 0xF0, 0x10, 6, 0x0B, 0, 0, 0, 0, 0xF7]
    /// );
    /// assert_eq!(edits.len(), 2);
    /// for edit in edits {
    ///     match edit {
    ///         PatchEdit::Parameter(edit) => println!("{} to {}", edit.parameter(), edit.value()),
    ///         PatchEdit::Bus(edit) => println!("bus {} to {:?}", edit.number(), edit.bus()),
    ///     }
    ///     returned.apply(edit);
    /// }
    /// assert_eq!(returned, lent);
    ///
    /// returned.set_name("BASS 1  ")?;
    /// let refused = returned.edits_to(&lent).unwrap_err();
    /// assert_eq!(refused.number(), 16);
    /// # Ok::<(), Error>(())
    /// ```
    pub fn edits_to(&self, other: &Self) -> Result<Edits, Error> {
        let mut list = [0; Edits::LONGEST];
        let planned = ffi::plan(self.as_bytes(), other.as_bytes(), &mut list);
        let end = Error::check(planned, |bare| self.named_unlike(other, bare))?;
        Ok(Edits {
            left: reports(&list[..end]).count(),
            list,
            place: 0,
            end,
        })
    }

    /// Checks a list of edits that is to turn this patch into another, whoever made it. It is accepted
    /// exactly when it is edits end to end as [`Message`] writes them, with no real time inside and
    /// nothing between or behind them, every edit is allowed in turn, and the last patch equals the
    /// other. So it may have another order than that of [`edits_to`](Patch::edits_to), and needless
    /// edits.
    ///
    /// # Errors
    ///
    /// [`Error::OtherName`] where the two patches have different names, then [`Error::NotAccepted`]
    /// for any list that is not accepted.
    ///
    /// ```
    /// use matrix1000::{Error, Parameter, Patch};
    ///
    /// let patch = Patch::default();
    /// let mut brighter = patch;
    /// brighter.set(Parameter::VCF_FREQUENCY, 127)?;
    /// let list = [0xF0, 0x10, 0x06, 0x06, 21, 127, 0xF7];
    /// assert_eq!(patch.check_edits_to(&brighter, &list), Ok(()));
    /// assert_eq!(patch.check_edits_to(&brighter, &list[1..]), Err(Error::NotAccepted));
    /// assert_eq!(patch.check_edits_to(&patch, &list), Err(Error::NotAccepted));
    /// # Ok::<(), Error>(())
    /// ```
    pub fn check_edits_to(&self, other: &Self, list: &[u8]) -> Result<(), Error> {
        let checked = ffi::check_plan(self.as_bytes(), other.as_bytes(), list);
        Error::check(checked, |bare| self.named_unlike(other, bare)).map(drop)
    }

    /// Both patches are tested and there is room for every list, so only their names are left.
    fn named_unlike(&self, other: &Self, bare: Bare) -> Error {
        debug_assert!(matches!(bare, Bare::Names), "tested patches, and room");
        let [from, to] = [self, other].map(Self::name_text);
        Error::OtherName { from, to }
    }
}

/// An iterator over the edits that turn one patch into another. Made by [`Patch::edits_to`].
///
/// ```
/// use matrix1000::{to_vec, Error, Parameter, Patch};
///
/// let patch = Patch::default();
/// let mut other = patch;
/// other.set(Parameter::MIX, 31)?;
/// other.set(Parameter::DCO_2_DETUNE, -32)?;
/// let mut edits = patch.edits_to(&other)?;
/// assert_eq!(to_vec(edits.clone())?, edits.as_bytes());
/// edits.next();
/// assert_eq!(edits.as_bytes(), [0xF0, 0x10, 0x06, 0x06, 20, 31, 0xF7]);
/// # Ok::<(), Error>(())
/// ```
#[derive(Clone)]
#[must_use = "iterators are lazy"]
pub struct Edits {
    list: [u8; Edits::LONGEST],
    /// Where the next edit stands.
    place: usize,
    /// The place behind the last one.
    end: usize,
    /// How many there are from the one place to the other.
    left: usize,
}

impl Edits {
    /// The most bytes that a list has: an edit of each of the 96 fields and of each of the ten buses.
    pub const LONGEST: usize = 96 * Kind::Edit.length() + Patch::BUSES * Kind::BusEdit.length();

    /// The messages of the edits that are left, end to end as they are sent; of all of them before the
    /// first one is taken.
    #[must_use]
    pub fn as_bytes(&self) -> &[u8] {
        &self.list[self.place..self.end]
    }
}

impl Iterator for Edits {
    type Item = PatchEdit;

    fn next(&mut self) -> Option<PatchEdit> {
        let found = messages(self.as_bytes()).next()?;
        self.place += found.end;
        self.left -= 1;
        match found.message {
            Ok(Message::Edit(edit)) => Some(edit.into()),
            Ok(Message::BusEdit(edit)) => Some(edit.into()),
            other => unreachable!("a list has edits alone, not {other:?}"),
        }
    }

    fn size_hint(&self) -> (usize, Option<usize>) {
        (self.left, Some(self.left))
    }
}

impl ExactSizeIterator for Edits {}

// Where no bytes are left there is no message.
impl FusedIterator for Edits {}

impl AsRef<[u8]> for Edits {
    fn as_ref(&self) -> &[u8] {
        self.as_bytes()
    }
}

/// The edits that are left.
impl fmt::Debug for Edits {
    fn fmt(&self, f: &mut fmt::Formatter<'_>) -> fmt::Result {
        f.debug_list().entries(self.clone()).finish()
    }
}

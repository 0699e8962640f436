//! The 18 bytes of a split.

use std::fmt;

use crate::format::tested;
use crate::{Error, Length, Patch};

/// A split of a Matrix-6R, which plays two patches at once: 18 packed bytes, every field in range.
///
/// There is no other way to one than through the test, but for the default, the split of zeros, which
/// passes it: whoever holds a `Split` holds a good one.
///
/// ```
/// use matrix1000::{messages, Error, Message, Split, Voices, Zone};
///
/// // Patch 12 below on two voices, transposed by -12, and patch 40 above on four.
/// let mut split = Split::default();
/// split.set_name("BASS+1")?;
/// split.set_lower_patch(12)?;
/// split.set_upper_patch(40)?;
/// split.set_left_zone(Zone { limit: 59, transpose: -12, midi_out: false })?;
/// split.set_right_zone(Zone { limit: 60, ..Zone::default() })?;
/// split.set_voices(Voices::TwoFour);
/// assert_eq!(split.as_bytes()[8..], [12, 40, 59, 0xF4, 0, 60, 0, 0, 0, 0]);
///
/// let dump = Message::Split { number: 7, split }.to_vec()?;
/// assert_eq!(dump.len(), 43);
/// let found = messages(&dump).next().unwrap().message?;
/// assert_eq!(found.split().map(Split::name).as_deref(), Some("BASS+1"));
///
/// let refused = split.set_balance(-33).unwrap_err();
/// assert_eq!((refused.detail(), refused.value()), (16, -33));
/// # Ok::<(), Error>(())
/// ```
#[derive(Clone, Copy, Default, PartialEq, Eq, Hash)]
pub struct Split([u8; Split::LENGTH]);

/// One of a split's two zones.
#[derive(Clone, Copy, Debug, Default, PartialEq, Eq, Hash)]
pub struct Zone {
    /// The limit, 0 to 127.
    pub limit: u8,
    /// The transposition, -32 to 31.
    pub transpose: i8,
    /// Whether MIDI out is enabled.
    pub midi_out: bool,
}

/// How a split has the six voices: so many for the lower patch, and so many for the upper.
///
/// ```
/// use matrix1000::Voices;
///
/// let voices = Voices::FourTwo;
/// assert_eq!((voices.lower(), voices.upper()), (4, 2));
/// assert_eq!(Voices::ALL.map(|voices| voices.to_string()), ["2/4", "4/2", "6/0", "0/6"]);
/// ```
#[derive(Clone, Copy, Debug, PartialEq, Eq, Hash)]
pub enum Voices {
    /// 2/4.
    TwoFour,
    /// 4/2.
    FourTwo,
    /// 6/0.
    SixZero,
    /// 0/6.
    ZeroSix,
}

impl Split {
    /// The number of packed bytes in a split.
    pub const LENGTH: usize = 18;
    /// The number of characters in a name.
    pub const NAME_LENGTH: usize = 6;
    /// The number of splits in a unit, which are numbered from 0.
    pub const COUNT: usize = 50;

    const LOWER_PATCH: usize = 8;
    const UPPER_PATCH: usize = 9;
    /// The place of the left zone's limit; three bytes to a zone.
    const LEFT_ZONE: usize = 10;
    const RIGHT_ZONE: usize = 13;
    const BALANCE: usize = 16;
    const VOICES: usize = 17;

    /// The fields from the lower patch number on, named as the maker's listing names them.
    const FIELDS: [&str; Self::LENGTH - Self::LOWER_PATCH] = [
        "Lower Patch Number",
        "Upper Patch Number",
        "Left Zone Limit",
        "Left Zone Transpose",
        "Left Zone MIDI Out Enable",
        "Right Zone Limit",
        "Right Zone Transpose",
        "Right Zone MIDI Out Enable",
        "Left/Right Balance",
        "Voice Configuration",
    ];

    /// The name as text: six characters from space to underscore, those at the end often spaces.
    #[must_use]
    pub fn name(&self) -> String {
        // A character is stored as in the name of a patch, of which this is the start.
        let mut patch = Patch::default().to_bytes();
        patch[..Self::NAME_LENGTH].copy_from_slice(&self.0[..Self::NAME_LENGTH]);
        let mut name = Patch::tested(patch).name();
        name.truncate(Self::NAME_LENGTH);
        name
    }

    /// Sets the name: six characters from space to underscore, so digits and capitals but no small
    /// letters.
    ///
    /// # Errors
    ///
    /// [`Error::WrongLength`] for more or fewer bytes than six, [`Error::NotAllowed`] for another
    /// character. The name is then kept.
    ///
    /// ```
    /// use matrix1000::Split;
    ///
    /// let refused = Split::default().set_name("BASS").unwrap_err();
    /// assert_eq!(refused.to_string(), "a split's name has 6 bytes, filled up with spaces, not 4");
    /// ```
    pub fn set_name(&mut self, name: &str) -> Result<(), Error> {
        if name.len() != Self::NAME_LENGTH {
            return Err(Error::WrongLength(Length::SplitName(name.len())));
        }
        let mut patch = Patch::default();
        patch.set_name(&format!("{name}  "))?;
        self.put(0, &patch.as_bytes()[..Self::NAME_LENGTH])
    }

    /// The number of the lower patch.
    #[must_use]
    pub const fn lower_patch(&self) -> u8 {
        self.0[Self::LOWER_PATCH]
    }

    /// Sets the number of the lower patch. The field takes 0 to 127, though a unit has 100 patches.
    ///
    /// # Errors
    ///
    /// [`Error::OutOfRange`] with the field's place and this number. The split is then kept.
    pub fn set_lower_patch(&mut self, number: u8) -> Result<(), Error> {
        self.put(Self::LOWER_PATCH, &[number])
    }

    /// The number of the upper patch.
    #[must_use]
    pub const fn upper_patch(&self) -> u8 {
        self.0[Self::UPPER_PATCH]
    }

    /// Sets the number of the upper patch. The field takes 0 to 127, though a unit has 100 patches.
    ///
    /// # Errors
    ///
    /// [`Error::OutOfRange`] with the field's place and this number. The split is then kept.
    pub fn set_upper_patch(&mut self, number: u8) -> Result<(), Error> {
        self.put(Self::UPPER_PATCH, &[number])
    }

    /// The left zone.
    #[must_use]
    pub const fn left_zone(&self) -> Zone {
        self.zone(Self::LEFT_ZONE)
    }

    /// Sets the left zone.
    ///
    /// # Errors
    ///
    /// [`Error::OutOfRange`] with the lowest place and its value. The split is then kept.
    ///
    /// ```
    /// use matrix1000::{Error, Split, Zone};
    ///
    /// let mut split = Split::default();
    /// split.set_left_zone(Zone { midi_out: true, ..split.left_zone() })?;
    /// assert_eq!(split.as_bytes()[12], 1);
    /// let refused = split.set_left_zone(Zone { transpose: 32, ..Zone::default() });
    /// assert_eq!(
    ///     refused.unwrap_err().to_string(),
    ///     "32 is out of range for Left Zone Transpose, byte 11 of the split: -32 to 31"
    /// );
    /// # Ok::<(), Error>(())
    /// ```
    pub fn set_left_zone(&mut self, zone: Zone) -> Result<(), Error> {
        self.put(Self::LEFT_ZONE, &zone.to_bytes())
    }

    /// The right zone.
    #[must_use]
    pub const fn right_zone(&self) -> Zone {
        self.zone(Self::RIGHT_ZONE)
    }

    /// Sets the right zone.
    ///
    /// # Errors
    ///
    /// [`Error::OutOfRange`] with the lowest place and its value. The split is then kept.
    pub fn set_right_zone(&mut self, zone: Zone) -> Result<(), Error> {
        self.put(Self::RIGHT_ZONE, &zone.to_bytes())
    }

    /// The balance of the two zones: -31 for the left one only, 31 for the right one only.
    #[must_use]
    pub const fn balance(&self) -> i8 {
        self.0[Self::BALANCE].cast_signed()
    }

    /// Sets the balance of the two zones, -32 to 31.
    ///
    /// # Errors
    ///
    /// [`Error::OutOfRange`] with the field's place and this balance. The split is then kept.
    pub fn set_balance(&mut self, balance: i8) -> Result<(), Error> {
        self.put(Self::BALANCE, &[balance.cast_unsigned()])
    }

    /// The voice configuration.
    #[must_use]
    pub fn voices(&self) -> Voices {
        Voices::ALL[usize::from(self.0[Self::VOICES])]
    }

    /// Sets the voice configuration.
    pub fn set_voices(&mut self, voices: Voices) {
        let set = self.put(Self::VOICES, &[voices as u8]);
        debug_assert_eq!(set, Ok(()), "the field takes every configuration");
    }

    const fn zone(&self, place: usize) -> Zone {
        Zone {
            limit: self.0[place],
            transpose: self.0[place + 1].cast_signed(),
            midi_out: self.0[place + 2] != 0,
        }
    }

    /// Puts other bytes at a place, if the library takes them there.
    fn put(&mut self, place: usize, bytes: &[u8]) -> Result<(), Error> {
        let mut changed = self.0;
        changed[place..][..bytes.len()].copy_from_slice(bytes);
        *self = Self::try_from(changed)?;
        Ok(())
    }
}

/// What stands at a byte place of a split.
pub(crate) fn field_at(place: usize) -> String {
    match place.checked_sub(Split::LOWER_PATCH) {
        Some(behind) => Split::FIELDS[behind].to_owned(),
        None if place < Split::NAME_LENGTH => format!("character {place} of the name"),
        None => "a field that is not used".to_owned(),
    }
}

impl Zone {
    fn to_bytes(self) -> [u8; 3] {
        let transpose = self.transpose.cast_unsigned();
        [self.limit, transpose, self.midi_out.into()]
    }
}

impl Voices {
    /// Every configuration, by the number that stands for it.
    pub const ALL: [Self; 4] = [Self::TwoFour, Self::FourTwo, Self::SixZero, Self::ZeroSix];

    /// How many voices play the lower patch.
    #[must_use]
    pub const fn lower(self) -> u8 {
        match self {
            Self::TwoFour => 2,
            Self::FourTwo => 4,
            Self::SixZero => 6,
            Self::ZeroSix => 0,
        }
    }

    /// How many voices play the upper patch.
    #[must_use]
    pub const fn upper(self) -> u8 {
        6 - self.lower()
    }
}

impl fmt::Display for Voices {
    fn fmt(&self, f: &mut fmt::Formatter<'_>) -> fmt::Result {
        write!(f, "{}/{}", self.lower(), self.upper())
    }
}

tested!(Split);

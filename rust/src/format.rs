//! Formats of packed bytes, and what every type of tested bytes has.

use std::fmt;
use std::ops::RangeInclusive;

use crate::error::Bare;
use crate::{ffi, patch, split};
use crate::{Error, Length, Patch, Split};

/// The formats of packed bytes whose fields are tested.
#[derive(Clone, Copy, Debug, PartialEq, Eq, Hash)]
#[non_exhaustive]
pub enum Format {
    /// A [`Patch`].
    Patch,
    /// A [`Split`].
    Split,
}

impl Format {
    /// The number of packed bytes.
    #[must_use]
    pub const fn length(self) -> usize {
        match self {
            Self::Patch => Patch::LENGTH,
            Self::Split => Split::LENGTH,
        }
    }

    /// The library's test.
    fn test(self, bytes: &[u8]) -> ffi::Outcome {
        match self {
            Self::Patch => ffi::test_patch(bytes),
            Self::Split => ffi::test_split(bytes),
        }
    }

    /// Bytes that pass the test.
    fn good(self) -> Vec<u8> {
        match self {
            Self::Patch => Patch::default().as_bytes().to_vec(),
            Self::Split => Split::default().as_bytes().to_vec(),
        }
    }

    /// What has a wrong length.
    const fn of_length(self, found: usize) -> Length {
        match self {
            Self::Patch => Length::Patch(found),
            Self::Split => Length::Split(found),
        }
    }

    /// What stands at a byte place.
    pub(crate) fn field_at(self, place: usize) -> String {
        match self {
            Self::Patch => patch::field_at(place),
            Self::Split => split::field_at(place),
        }
    }

    /// The values that the library takes at a byte place, from the least to the greatest.
    pub(crate) fn range_at(self, place: usize) -> RangeInclusive<i16> {
        // Every field lies in -64..=127, so a byte that is taken is, read as signed, its value.
        let mut bytes = self.good();
        let taken = |value: &i8| {
            bytes[place] = value.cast_unsigned();
            self.test(&bytes).answer != 11
        };
        let mut values = (i8::MIN..=i8::MAX).filter(taken).map(i16::from);
        let least = values.next().expect("a field takes a value");
        least..=values.next_back().unwrap_or(least)
    }

    /// 11 with a place and the value there.
    pub(crate) const fn out_of_range(self, place: usize, value: i16) -> Error {
        Error::OutOfRange {
            format: self,
            place,
            value,
        }
    }

    /// What a refusal speaks of: a field of this format, else what the caller says.
    pub(crate) fn about(self, bare: Bare, rest: impl FnOnce(Bare) -> Error) -> Error {
        match bare {
            Bare::Field { place, value } => self.out_of_range(place, value),
            bare => rest(bare),
        }
    }

    /// Bytes that have passed the library's test.
    pub(crate) fn tested<const N: usize>(self, bytes: &[u8]) -> Result<[u8; N], Error> {
        let wrong_length = || Error::WrongLength(self.of_length(bytes.len()));
        let about = |bare| self.about(bare, |_| wrong_length());
        Error::check(self.test(bytes), about)?;
        bytes.try_into().map_err(|_| wrong_length())
    }
}

impl fmt::Display for Format {
    fn fmt(&self, f: &mut fmt::Formatter<'_>) -> fmt::Result {
        f.pad(match self {
            Self::Patch => "patch",
            Self::Split => "split",
        })
    }
}

/// The bytes of a type that has the name of its format, and the ways to them and from them.
macro_rules! tested {
    ($name:ident) => {
        impl $name {
            /// Of bytes that the library has tested.
            pub(crate) const fn tested(bytes: [u8; Self::LENGTH]) -> Self {
                Self(bytes)
            }

            /// The packed bytes.
            #[must_use]
            pub const fn as_bytes(&self) -> &[u8; Self::LENGTH] {
                &self.0
            }

            /// The packed bytes.
            #[must_use]
            pub const fn to_bytes(self) -> [u8; Self::LENGTH] {
                self.0
            }
        }

        impl TryFrom<[u8; $name::LENGTH]> for $name {
            type Error = crate::Error;

            fn try_from(bytes: [u8; $name::LENGTH]) -> Result<Self, crate::Error> {
                Self::try_from(bytes.as_slice())
            }
        }

        impl TryFrom<&[u8]> for $name {
            type Error = crate::Error;

            fn try_from(bytes: &[u8]) -> Result<Self, crate::Error> {
                crate::Format::$name.tested(bytes).map(Self)
            }
        }

        impl AsRef<[u8]> for $name {
            fn as_ref(&self) -> &[u8] {
                &self.0
            }
        }

        impl From<$name> for [u8; $name::LENGTH] {
            fn from(tested: $name) -> Self {
                tested.0
            }
        }

        impl std::fmt::Debug for $name {
            fn fmt(&self, f: &mut std::fmt::Formatter<'_>) -> std::fmt::Result {
                f.debug_struct(stringify!($name))
                    .field("name", &self.name())
                    .field("bytes", &self.0)
                    .finish()
            }
        }
    };
}

pub(crate) use tested;

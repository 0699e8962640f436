//! A row of a listing, and the field test that a listing's rows make together.

use crate::answers::Refusal;

/// One row of a listing.
#[derive(Clone, Copy, Debug, PartialEq, Eq)]
pub struct Row {
    /// The byte place, from 0 on.
    pub place: u8,
    /// The parameter number, where the listing's column has one.
    pub parameter: Option<u8>,
    /// The least value, with its sign.
    pub least: i8,
    /// The greatest value.
    pub greatest: i8,
    /// The description.
    pub name: &'static str,
}

/// The least and the greatest value of a field.
pub(crate) type Range = (i8, i8);

/// n bits means 0 to 2^n - 1.
pub(crate) const fn bits(n: u32) -> Range {
    (0, ((1_u8 << n) - 1).cast_signed())
}

/// n bits, one of them the sign.
pub(crate) const fn signed(n: u32) -> Range {
    let half = 1_i8 << (n - 1);
    (-half, half - 1)
}

pub(crate) const fn row(place: u8, parameter: u8, range: Range, name: &'static str) -> Row {
    Row {
        parameter: Some(parameter),
        ..plain(place, range, name)
    }
}

/// A row whose parameter column is empty.
pub(crate) const fn plain(place: u8, (least, greatest): Range, name: &'static str) -> Row {
    Row {
        place,
        parameter: None,
        least,
        greatest,
        name,
    }
}

/// The least value at each place, and the greatest: the columns the field test runs over.
pub(crate) struct Fields<const LENGTH: usize> {
    least: [i8; LENGTH],
    greatest: [i8; LENGTH],
}

impl<const LENGTH: usize> Fields<LENGTH> {
    /// The fields of a listing, each row at the index of its place.
    pub const fn of(listing: &[Row; LENGTH]) -> Self {
        let mut fields = Self {
            least: [0; LENGTH],
            greatest: [0; LENGTH],
        };
        let mut place = 0;
        while place < LENGTH {
            fields.least[place] = listing[place].least;
            fields.greatest[place] = listing[place].greatest;
            place += 1;
        }
        fields
    }

    /// 11 with the lowest place out of range and its value.
    #[inline]
    pub fn test(&self, bytes: &[u8; LENGTH]) -> Result<(), Refusal> {
        if self.any_outside(bytes) {
            return self.test_each(bytes);
        }
        Ok(())
    }

    /// The same place by place.
    #[cold]
    fn test_each(&self, bytes: &[u8; LENGTH]) -> Result<(), Refusal> {
        let mut numbered = bytes.iter().enumerate();
        numbered.try_for_each(|(place, &byte)| self.test_at(place, byte))
    }

    /// 11 with the place and its value, for a byte that the field there doesn't allow.
    pub fn test_at(&self, place: usize, byte: u8) -> Result<(), Refusal> {
        if self.allows(place, byte) {
            return Ok(());
        }
        Err(Refusal::found(place, self.value_at(place, byte)))
    }

    /// Whether a field may hold this byte. Every range lies in -64..127, so the byte read as signed
    /// serves the unsigned fields too: 128 and above are below their least value.
    pub fn allows(&self, place: usize, byte: u8) -> bool {
        (self.least[place]..=self.greatest[place]).contains(&byte.cast_signed())
    }

    /// The value of a byte at a place: with its sign where the field has one, else the byte as it
    /// stands. A field has a sign exactly where its least value is below 0.
    pub fn value_at(&self, place: usize, byte: u8) -> i16 {
        if self.least[place] < 0 {
            byte.cast_signed().into()
        } else {
            byte.into()
        }
    }

    /// All bytes that are out of range at a byte place, rising; none behind the last place.
    pub fn outside(&self, place: u8) -> Vec<u8> {
        let place = usize::from(place);
        let refused = |&byte: &u8| place < LENGTH && !self.allows(place, byte);
        (0..=255).filter(refused).collect()
    }

    /// Whether any byte is out of range. Usually none is, and the whole has no branches.
    #[inline]
    fn any_outside(&self, bytes: &[u8; LENGTH]) -> bool {
        let ranges = self.least.iter().zip(&self.greatest);
        bytes
            .iter()
            .zip(ranges)
            .fold(false, |any, (byte, (&least, &greatest))| {
                let value = byte.cast_signed();
                any | (value < least) | (value > greatest)
            })
    }
}

//! The 134 bytes of a patch.

use crate::error::Bare;
use crate::ffi;
use crate::format::tested;
use crate::{BusEdit, Edit, Error, Length, NotAllowed, Parameter, PatchEdit};

/// A patch: 134 packed bytes, every field in range and no bus half used.
///
/// There is no other way to one than through the tests, but for the default, which passes them: whoever
/// holds a `Patch` holds a good one.
///
/// ```
/// use matrix1000::{Error, Parameter, Patch};
///
/// let mut patch = Patch::default();
/// patch.set_name("BASS 1  ")?;
/// assert_eq!(patch.name(), "BASS 1  ");
///
/// patch.set(Parameter::DCO_2_DETUNE, -32)?;
/// assert_eq!(patch.get(Parameter::DCO_2_DETUNE), -32);
/// assert_eq!(patch.as_bytes()[19], 0xE0);
/// let refused = patch.set(Parameter::DCO_2_DETUNE, 32).unwrap_err();
/// assert_eq!((refused.detail(), refused.value()), (19, 32));
/// # Ok::<(), Error>(())
/// ```
#[derive(Clone, Copy, PartialEq, Eq, Hash)]
pub struct Patch([u8; Patch::LENGTH]);

/// One of a patch's ten modulation buses. Source and destination are both zero or both not.
#[derive(Clone, Copy, Debug, Default, PartialEq, Eq, Hash)]
pub struct Bus {
    /// The source, 0 to 20; 0 for none.
    pub source: u8,
    /// The amount, -64 to 63.
    pub amount: i8,
    /// The destination, 0 to 32; 0 for none.
    pub destination: u8,
}

impl Patch {
    /// The number of packed bytes in a patch.
    pub const LENGTH: usize = 134;
    /// The number of modulation buses.
    pub const BUSES: usize = 10;
    /// The number of characters in a name.
    pub const NAME_LENGTH: usize = 8;

    /// The place of bus 0's source; three bytes to a bus.
    const FIRST_BUS: usize = 104;

    /// The name as text: eight characters from space to underscore, those at the end often spaces.
    #[must_use]
    pub fn name(&self) -> String {
        self.name_text().map(char::from).iter().collect()
    }

    /// The name as text.
    pub(crate) fn name_text(&self) -> [u8; Self::NAME_LENGTH] {
        let mut text = [0; Self::NAME_LENGTH];
        let shown = ffi::show_name(&self.0, &mut text);
        debug_assert_eq!(shown.answer, 0, "a tested patch, and room");
        text
    }

    /// Sets the name: eight characters from space to underscore, so digits and capitals but no small
    /// letters.
    ///
    /// # Errors
    ///
    /// [`Error::WrongLength`] for more or fewer bytes than eight, [`Error::NotAllowed`] for another
    /// character. The name is then kept.
    ///
    /// ```
    /// use matrix1000::Patch;
    ///
    /// let refused = Patch::default().set_name("BASS").unwrap_err();
    /// assert_eq!(refused.to_string(), "a patch's name has 8 bytes, filled up with spaces, not 4");
    /// ```
    pub fn set_name(&mut self, name: &str) -> Result<(), Error> {
        let set = ffi::set_name(&mut self.0, name.as_bytes());
        let about = |bare| match name.chars().find(|&character| !in_names(character)) {
            Some(refused) if matches!(bare, Bare::Number) => {
                Error::NotAllowed(NotAllowed::Character(refused))
            }
            _ => Error::WrongLength(Length::Name(name.len())),
        };
        Error::check(set, about).map(drop)
    }

    /// A field's value, with its sign.
    #[must_use]
    pub fn get(&self, parameter: Parameter) -> i16 {
        let held = ffi::value_of(&self.0, parameter.number());
        debug_assert_eq!(held.outcome.answer, 0, "a tested patch, and a parameter");
        held.value
    }

    /// Sets a field.
    ///
    /// # Errors
    ///
    /// [`Error::OutOfRange`] with the field's place and this value. The patch is then kept.
    pub fn set(&mut self, parameter: Parameter, value: i16) -> Result<(), Error> {
        self.apply(Edit::new(parameter, value)?);
        Ok(())
    }

    /// A modulation bus, 0 to 9.
    #[must_use]
    pub fn bus(&self, number: usize) -> Option<Bus> {
        let (buses, _) = self.0[Self::FIRST_BUS..].as_chunks();
        buses.get(number).copied().map(Bus::from_bytes)
    }

    /// All ten modulation buses.
    #[must_use]
    pub fn buses(&self) -> [Bus; Self::BUSES] {
        std::array::from_fn(|number| self.bus(number).unwrap_or_default())
    }

    /// Sets a modulation bus, 0 to 9.
    ///
    /// # Errors
    ///
    /// [`Error::NotAllowed`] for another bus, [`Error::OutOfRange`] and [`Error::HalfUsed`] for what
    /// it is to hold. The patch is then kept.
    ///
    /// ```
    /// use matrix1000::{Bus, Error, Patch};
    ///
    /// let mut patch = Patch::default();
    /// let bus = Bus { source: 20, amount: -64, destination: 32 };
    /// patch.set_bus(9, bus)?;
    /// assert_eq!(patch.bus(9), Some(bus));
    /// assert_eq!(patch.as_bytes()[131..], [0x14, 0xC0, 0x20]);
    /// let none_such = Bus { destination: 33, ..bus };
    /// let refused = patch.set_bus(9, none_such).unwrap_err();
    /// assert_eq!((refused.number(), refused.detail(), refused.value()), (11, 133, 33));
    /// # Ok::<(), Error>(())
    /// ```
    pub fn set_bus(&mut self, number: usize, bus: Bus) -> Result<(), Error> {
        let mut changed = self.0;
        let (buses, _) = changed[Self::FIRST_BUS..].as_chunks_mut();
        let bytes = buses.get_mut(number);
        *bytes.ok_or(Error::NotAllowed(NotAllowed::Bus(number)))? = bus.to_bytes();
        *self = Self::try_from(changed)?;
        Ok(())
    }

    /// Applies an edit of either kind. A remote edit changes one field, a matrix modulation edit one
    /// bus.
    pub fn apply(&mut self, edit: impl Into<PatchEdit>) {
        let applied = match edit.into() {
            PatchEdit::Parameter(edit) => {
                let [parameter, value] = edit.bytes();
                ffi::apply_edit(&mut self.0, parameter, value)
            }
            PatchEdit::Bus(edit) => ffi::apply_bus_edit(&mut self.0, edit.bytes()),
        };
        debug_assert_eq!(applied.answer, 0, "a tested edit of a tested patch");
    }

    /// Applies a matrix modulation edit, which changes one bus.
    pub fn apply_bus(&mut self, edit: BusEdit) {
        self.apply(edit);
    }
}

/// Whether the library takes a character in a name.
fn in_names(character: char) -> bool {
    let mut patch = Patch::default();
    u8::try_from(character).is_ok_and(|byte| {
        let name = [byte; Patch::NAME_LENGTH];
        ffi::set_name(&mut patch.0, &name).answer == 0
    })
}

/// What stands at a byte place of a patch.
pub(crate) fn field_at(place: usize) -> String {
    if let Some(parameter) = Parameter::at(place) {
        return parameter.to_string();
    }
    match place.checked_sub(Patch::FIRST_BUS) {
        None => format!("character {place} of the name"),
        Some(behind) => {
            let part = ["source", "amount", "destination"][behind % 3];
            format!("the {part} of bus {}", behind / 3)
        }
    }
}

impl Bus {
    const fn from_bytes([source, amount, destination]: [u8; 3]) -> Self {
        Self {
            source,
            amount: amount.cast_signed(),
            destination,
        }
    }

    const fn to_bytes(self) -> [u8; 3] {
        [self.source, self.amount.cast_unsigned(), self.destination]
    }
}

/// The patch of zeros, but for the tracking generator's source, whose least value is 1.
impl Default for Patch {
    fn default() -> Self {
        let mut bytes = [0; Self::LENGTH];
        bytes[Parameter::TRACKING_SOURCE.place()] = 1;
        Self(bytes)
    }
}

tested!(Patch);

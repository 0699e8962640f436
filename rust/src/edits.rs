//! Edits: of one field, and of one modulation bus.

use crate::ffi;
use crate::{Bus, Error, Format, NotAllowed, Parameter, Patch};

/// A remote edit (06H): a parameter and its value, in the field's range.
///
/// ```
/// use matrix1000::{Edit, Error, Parameter, Patch};
///
/// let edit = Edit::new(Parameter::VCF_FREQUENCY, 127)?;
/// let mut patch = Patch::default();
/// patch.apply(edit);
/// assert_eq!(patch.get(Parameter::VCF_FREQUENCY), 127);
///
/// // A value is tested before it is sent: 100 and -28 have the same seven bits.
/// let refused = Edit::new(Parameter::DCO_1_FREQUENCY_BY_LFO_1, 100).unwrap_err();
/// assert_eq!((refused.detail(), refused.value()), (86, 100));
/// assert_eq!(Edit::from_bytes(1, 100)?.value(), -28);
/// // Sent bits are refused with what the field would get, here C0H.
/// let refused = Edit::from_bytes(0, 0x40).unwrap_err();
/// assert_eq!((refused.detail(), refused.value()), (9, 192));
/// # Ok::<(), Error>(())
/// ```
#[derive(Clone, Copy, Debug, PartialEq, Eq, Hash)]
pub struct Edit {
    parameter: Parameter,
    /// The seven bits that are sent.
    value: u8,
}

/// A matrix modulation edit (0BH): a bus and what it is to hold.
///
/// ```
/// use matrix1000::{Bus, BusEdit, Error, Patch};
///
/// let bus = Bus { source: 1, amount: -1, destination: 1 };
/// let mut patch = Patch::default();
/// patch.apply_bus(BusEdit::new(0, bus)?);
/// assert_eq!(patch.bus(0), Some(bus));
/// let refused = BusEdit::new(10, bus).unwrap_err();
/// assert_eq!(refused.to_string(), "bus 10 is not allowed: 0 to 9");
/// # Ok::<(), Error>(())
/// ```
#[derive(Clone, Copy, Debug, PartialEq, Eq, Hash)]
pub struct BusEdit {
    number: u8,
    source: u8,
    /// The seven bits that are sent.
    amount: u8,
    destination: u8,
}

/// An edit of either kind.
///
/// ```
/// use matrix1000::{Edit, Error, Message, Parameter, Patch, PatchEdit};
///
/// let edit = PatchEdit::from(Edit::new(Parameter::MIX, 31)?);
/// let mut patch = Patch::default();
/// patch.apply(edit);
/// assert_eq!(patch.get(Parameter::MIX), 31);
/// assert_eq!(Message::from(edit).to_vec()?, [0xF0, 0x10, 0x06, 0x06, 20, 31, 0xF7]);
/// # Ok::<(), Error>(())
/// ```
#[derive(Clone, Copy, Debug, PartialEq, Eq, Hash)]
pub enum PatchEdit {
    /// Of one field: a remote edit (06H).
    Parameter(Edit),
    /// Of one modulation bus: a matrix modulation edit (0BH).
    Bus(BusEdit),
}

impl Edit {
    /// An edit that sets a parameter to a value.
    ///
    /// # Errors
    ///
    /// [`Error::OutOfRange`] with the field's place and this value.
    pub fn new(parameter: Parameter, value: i16) -> Result<Self, Error> {
        // Other values have the same seven bits; the field takes one of them.
        if !parameter.range().contains(&value) {
            return Err(Format::Patch.out_of_range(parameter.place(), value));
        }
        Self::from_bytes(parameter.number(), value.to_le_bytes()[0] & 0x7F)
    }

    /// An edit as it is sent: the parameter's number and seven bits.
    ///
    /// # Errors
    ///
    /// [`Error::NotAllowed`] for a number that is no parameter's and a value above 127, then
    /// [`Error::OutOfRange`] with the value that the field would get.
    pub fn from_bytes(parameter: u8, value: u8) -> Result<Self, Error> {
        let tested = ffi::write_edit(parameter, value, &mut []);
        let parameter = Parameter::try_from(parameter)?;
        Error::tested(tested, |_| Error::NotAllowed(NotAllowed::Value(value)))?;
        Ok(Self { parameter, value })
    }

    /// The parameter.
    #[must_use]
    pub const fn parameter(self) -> Parameter {
        self.parameter
    }

    /// The value that the field gets, with its sign.
    #[must_use]
    pub fn value(self) -> i16 {
        let mut patch = Patch::default();
        patch.apply(self);
        patch.get(self.parameter)
    }

    /// The parameter's number and the seven bits that are sent.
    #[must_use]
    pub const fn bytes(self) -> [u8; 2] {
        [self.parameter.number(), self.value]
    }
}

impl BusEdit {
    /// An edit that sets a bus, 0 to 9.
    ///
    /// # Errors
    ///
    /// [`Error::NotAllowed`] for another bus, then [`Error::OutOfRange`] with the lowest place and its
    /// value, an amount outside -64 to 63 included, and [`Error::HalfUsed`].
    pub fn new(number: u8, bus: Bus) -> Result<Self, Error> {
        // Other amounts have the same seven bits; a patch holds all eight.
        Patch::default().set_bus(number.into(), bus)?;
        Self::from_bytes([
            number,
            bus.source,
            bus.amount.cast_unsigned() & 0x7F,
            bus.destination,
        ])
    }

    /// An edit as it is sent: bus, source, seven bits of the amount, destination.
    ///
    /// # Errors
    ///
    /// [`Error::NotAllowed`] for a bus above 9 and an amount above 127, then [`Error::OutOfRange`]
    /// and [`Error::HalfUsed`].
    pub fn from_bytes(bytes: [u8; 4]) -> Result<Self, Error> {
        let [number, source, amount, destination] = bytes;
        Error::tested(ffi::write_bus_edit(bytes, &mut []), |_| {
            let bus = usize::from(number);
            Error::NotAllowed(if bus < Patch::BUSES {
                NotAllowed::Amount(amount)
            } else {
                NotAllowed::Bus(bus)
            })
        })?;
        Ok(Self {
            number,
            source,
            amount,
            destination,
        })
    }

    /// The number of the bus.
    #[must_use]
    pub const fn number(self) -> u8 {
        self.number
    }

    /// What the bus gets.
    #[must_use]
    pub fn bus(self) -> Bus {
        let mut patch = Patch::default();
        patch.apply_bus(self);
        patch.buses()[usize::from(self.number)]
    }

    /// Bus, source, seven bits of the amount, destination, as they are sent.
    #[must_use]
    pub const fn bytes(self) -> [u8; 4] {
        [self.number, self.source, self.amount, self.destination]
    }
}

/// An edit as it is sent, as [`Edit::from_bytes`] takes it.
impl TryFrom<[u8; 2]> for Edit {
    type Error = Error;

    fn try_from([parameter, value]: [u8; 2]) -> Result<Self, Error> {
        Self::from_bytes(parameter, value)
    }
}

/// An edit as it is sent, as [`BusEdit::from_bytes`] takes it.
impl TryFrom<[u8; 4]> for BusEdit {
    type Error = Error;

    fn try_from(bytes: [u8; 4]) -> Result<Self, Error> {
        Self::from_bytes(bytes)
    }
}

impl From<Edit> for PatchEdit {
    fn from(edit: Edit) -> Self {
        Self::Parameter(edit)
    }
}

impl From<BusEdit> for PatchEdit {
    fn from(edit: BusEdit) -> Self {
        Self::Bus(edit)
    }
}

//! Parameter numbers, which are never byte places.

use std::fmt;
use std::ops::RangeInclusive;
use std::str::FromStr;

use crate::ffi;
use crate::{Error, NotAllowed, Patch};

/// A parameter number, one of the 96 that have a byte in the patch.
///
/// A byte place and a parameter number are two columns of one listing; they are converted only by
/// [`place`](Parameter::place) and [`at`](Parameter::at).
///
/// ```
/// use matrix1000::Parameter;
///
/// let cutoff: Parameter = "VCF Initial Frequency".parse()?;
/// assert_eq!(cutoff, Parameter::VCF_FREQUENCY);
/// assert_eq!((cutoff.number(), cutoff.place()), (21, 26));
/// assert_eq!(Parameter::at(26), Some(cutoff));
/// assert_eq!(cutoff.range(), 0..=127);
/// assert_eq!(Parameter::DCO_2_DETUNE.range(), -32..=31);
/// assert_eq!(format!("{cutoff}, {cutoff:?}"), "VCF Initial Frequency, VCF_FREQUENCY(21)");
///
/// assert_eq!(Parameter::all().count(), 96);
/// let refused = Parameter::try_from(39).unwrap_err();
/// assert_eq!(refused.to_string(), "parameter 39 is not one of the 96 of a patch");
/// # Ok::<(), matrix1000::ParseParameterError>(())
/// ```
#[derive(Clone, Copy, PartialEq, Eq, PartialOrd, Ord, Hash)]
pub struct Parameter(u8);

impl Parameter {
    /// The number, as an edit sends it.
    #[must_use]
    pub const fn number(self) -> u8 {
        self.0
    }

    /// The place of its byte in the patch, 8 to 103.
    #[must_use]
    pub fn place(self) -> usize {
        ffi::place_of(self.0).into()
    }

    /// The parameter at a byte place; the places of names and buses have none.
    #[must_use]
    pub fn at(place: usize) -> Option<Self> {
        let place = u8::try_from(place).ok()?;
        match ffi::parameter_of(place) {
            ffi::NONE => None,
            number => Some(Self(number)),
        }
    }

    /// Every parameter, in the order of the patch's bytes.
    pub fn all() -> impl Iterator<Item = Self> {
        (0..Patch::LENGTH).filter_map(Self::at)
    }

    /// The values that its field takes.
    #[must_use]
    pub fn range(self) -> RangeInclusive<i16> {
        let range = ffi::range_of(self.0);
        debug_assert_eq!(range.outcome.answer, 0, "a parameter");
        range.least..=range.greatest
    }
}

impl TryFrom<u8> for Parameter {
    type Error = Error;

    fn try_from(number: u8) -> Result<Self, Error> {
        match ffi::place_of(number) {
            ffi::NONE => Err(Error::NotAllowed(NotAllowed::Parameter(number))),
            _ => Ok(Self(number)),
        }
    }
}

impl fmt::Display for Parameter {
    fn fmt(&self, f: &mut fmt::Formatter<'_>) -> fmt::Result {
        f.pad(self.name())
    }
}

impl fmt::Debug for Parameter {
    fn fmt(&self, f: &mut fmt::Formatter<'_>) -> fmt::Result {
        write!(f, "{}({})", self.constant(), self.0)
    }
}

/// By the name in the maker's listing or that of the constant, in capitals or small letters.
///
/// ```
/// use matrix1000::Parameter;
///
/// assert_eq!("mix".parse(), Ok(Parameter::MIX));
/// assert_eq!("env_1_attack_time".parse(), Ok(Parameter::ENV_1_ATTACK_TIME));
/// let refused = "volume".parse::<Parameter>().unwrap_err();
/// assert_eq!(refused.to_string(), "there is no parameter named \"volume\"");
/// ```
impl FromStr for Parameter {
    type Err = ParseParameterError;

    fn from_str(name: &str) -> Result<Self, ParseParameterError> {
        let is_named = |parameter: &Self| {
            let names = [parameter.name(), parameter.constant()];
            names.iter().any(|other| name.eq_ignore_ascii_case(other))
        };
        Self::all().find(is_named).ok_or_else(|| {
            let name = name.to_owned();
            ParseParameterError { name }
        })
    }
}

/// No parameter has this name.
#[derive(Clone, Debug, PartialEq, Eq)]
pub struct ParseParameterError {
    name: String,
}

impl fmt::Display for ParseParameterError {
    fn fmt(&self, f: &mut fmt::Formatter<'_>) -> fmt::Result {
        write!(f, "there is no parameter named {:?}", self.name)
    }
}

impl std::error::Error for ParseParameterError {}

/// A constant for each parameter, and their names.
macro_rules! parameters {
    ($($constant:ident $number:literal $name:literal)*) => {
        /// The parameters in the order of the patch's bytes, named as the maker's listing names them.
        impl Parameter {
            $(
                #[doc = concat!($name, ".")]
                pub const $constant: Self = Self($number);
            )*

            /// The name in the maker's listing.
            #[must_use]
            pub const fn name(self) -> &'static str {
                match self.0 {
                    $($number => $name,)*
                    _ => "",
                }
            }

            /// The name of the constant.
            const fn constant(self) -> &'static str {
                match self.0 {
                    $($number => stringify!($constant),)*
                    _ => "",
                }
            }
        }
    };
}

parameters! {
    KEYBOARD_MODE 48 "Keyboard Mode"
    DCO_1_FREQUENCY 0 "DCO 1 Initial Frequency"
    DCO_1_WAVESHAPE 5 "DCO 1 Initial Waveshape"
    DCO_1_PULSE_WIDTH 3 "DCO 1 Initial Pulse Width"
    DCO_1_FIXED_MODULATIONS 7 "DCO 1 Fixed Modulations (Lever 1, Vibrato)"
    DCO_1_WAVEFORM_ENABLE 6 "DCO 1 Waveform Enable"
    DCO_2_FREQUENCY 10 "DCO 2 Initial Frequency"
    DCO_2_WAVESHAPE 15 "DCO 2 Initial Waveshape"
    DCO_2_PULSE_WIDTH 13 "DCO 2 Initial Pulse Width"
    DCO_2_FIXED_MODULATIONS 17 "DCO 2 Fixed Modulations (Lever 1, Vibrato)"
    DCO_2_WAVEFORM_ENABLE 16 "DCO 2 Waveform Enable"
    DCO_2_DETUNE 12 "DCO 2 Detune"
    MIX 20 "Mix"
    DCO_1_PORTAMENTO 8 "DCO 1 Fixed Modulations (Portamento)"
    DCO_1_CLICK 9 "DCO 1 Click"
    DCO_2_PORTAMENTO 18 "DCO 2 Fixed Modulations (Portamento, Keyboard Tracking)"
    DCO_2_CLICK 19 "DCO 2 Click"
    DCO_SYNC_MODE 2 "DCO Sync Mode"
    VCF_FREQUENCY 21 "VCF Initial Frequency"
    VCF_RESONANCE 24 "VCF Initial Resonance"
    VCF_FIXED_MODULATIONS 25 "VCF Fixed Modulations (Lever 1, Vibrato)"
    VCF_KEYBOARD_MODULATION 26 "VCF Keyboard Modulation"
    VCF_FM_AMOUNT 30 "VCF FM Initial Amount"
    VCA_1_AMOUNT 27 "VCA 1 (exponential) Initial Amount"
    PORTAMENTO_RATE 44 "Portamento Initial Rate"
    LAG_MODE 46 "Lag Mode"
    LEGATO_PORTAMENTO_ENABLE 47 "Legato Portamento Enable"
    LFO_1_SPEED 80 "LFO 1 Initial Speed"
    LFO_1_TRIGGER 86 "LFO 1 Trigger"
    LFO_1_LAG_ENABLE 87 "LFO 1 Lag Enable"
    LFO_1_WAVESHAPE 82 "LFO 1 Waveshape"
    LFO_1_RETRIGGER_POINT 83 "LFO 1 Retrigger Point"
    LFO_1_SAMPLED_SOURCE 88 "LFO 1 Sampled Source Number"
    LFO_1_AMPLITUDE 84 "LFO 1 Initial Amplitude"
    LFO_2_SPEED 90 "LFO 2 Initial Speed"
    LFO_2_TRIGGER 96 "LFO 2 Trigger"
    LFO_2_LAG_ENABLE 97 "LFO 2 Lag Enable"
    LFO_2_WAVESHAPE 92 "LFO 2 Waveshape"
    LFO_2_RETRIGGER_POINT 93 "LFO 2 Retrigger Point"
    LFO_2_SAMPLED_SOURCE 98 "LFO 2 Sampled Source Number"
    LFO_2_AMPLITUDE 94 "LFO 2 Initial Amplitude"
    ENV_1_TRIGGER_MODE 57 "Env 1 Trigger Mode"
    ENV_1_DELAY_TIME 50 "Env 1 Initial Delay Time"
    ENV_1_ATTACK_TIME 51 "Env 1 Initial Attack Time"
    ENV_1_DECAY_TIME 52 "Env 1 Initial Decay Time"
    ENV_1_SUSTAIN_LEVEL 53 "Env 1 Sustain Level"
    ENV_1_RELEASE_TIME 54 "Env 1 Initial Release Time"
    ENV_1_AMPLITUDE 55 "Env 1 Initial Amplitude"
    ENV_1_LFO_TRIGGER_MODE 59 "Env 1 LFO Trigger Mode"
    ENV_1_MODE 58 "Env 1 Mode"
    ENV_2_TRIGGER_MODE 67 "Env 2 Trigger Mode"
    ENV_2_DELAY_TIME 60 "Env 2 Initial Delay Time"
    ENV_2_ATTACK_TIME 61 "Env 2 Initial Attack Time"
    ENV_2_DECAY_TIME 62 "Env 2 Initial Decay Time"
    ENV_2_SUSTAIN_LEVEL 63 "Env 2 Sustain Level"
    ENV_2_RELEASE_TIME 64 "Env 2 Initial Release Time"
    ENV_2_AMPLITUDE 65 "Env 2 Initial Amplitude"
    ENV_2_LFO_TRIGGER_MODE 69 "Env 2 LFO Trigger Mode"
    ENV_2_MODE 68 "Env 2 Mode"
    ENV_3_TRIGGER_MODE 77 "Env 3 Trigger Mode"
    ENV_3_DELAY_TIME 70 "Env 3 Initial Delay Time"
    ENV_3_ATTACK_TIME 71 "Env 3 Initial Attack Time"
    ENV_3_DECAY_TIME 72 "Env 3 Initial Decay Time"
    ENV_3_SUSTAIN_LEVEL 73 "Env 3 Sustain Level"
    ENV_3_RELEASE_TIME 74 "Env 3 Initial Release Time"
    ENV_3_AMPLITUDE 75 "Env 3 Initial Amplitude"
    ENV_3_LFO_TRIGGER_MODE 79 "Env 3 LFO Trigger Mode"
    ENV_3_MODE 78 "Env 3 Mode"
    TRACKING_SOURCE 33 "Tracking Generator Input Source Code"
    TRACKING_POINT_1 34 "Tracking Point 1"
    TRACKING_POINT_2 35 "Tracking Point 2"
    TRACKING_POINT_3 36 "Tracking Point 3"
    TRACKING_POINT_4 37 "Tracking Point 4"
    TRACKING_POINT_5 38 "Tracking Point 5"
    RAMP_1_RATE 40 "Ramp 1 Rate"
    RAMP_1_MODE 41 "Ramp 1 Mode"
    RAMP_2_RATE 42 "Ramp 2 Rate"
    RAMP_2_MODE 43 "Ramp 2 Mode"
    DCO_1_FREQUENCY_BY_LFO_1 1 "DCO 1 Frequency by LFO 1 Amount"
    DCO_1_PW_BY_LFO_2 4 "DCO 1 PW by LFO 2 Amount"
    DCO_2_FREQUENCY_BY_LFO_1 11 "DCO 2 Frequency by LFO 1 Amount"
    DCO_2_PW_BY_LFO_2 14 "DCO 2 PW by LFO 2 Amount"
    VCF_FREQUENCY_BY_ENV_1 22 "VCF Frequency by Env 1 Amount"
    VCF_FREQUENCY_BY_PRESSURE 23 "VCF Frequency by Pressure Amount"
    VCA_1_BY_VELOCITY 28 "VCA 1 by Velocity Amount"
    VCA_2_BY_ENV_2 29 "VCA 2 by Env 2 Amount"
    ENV_1_AMPLITUDE_BY_VELOCITY 56 "Env 1 Amplitude by Velocity Amount"
    ENV_2_AMPLITUDE_BY_VELOCITY 66 "Env 2 Amplitude by Velocity Amount"
    ENV_3_AMPLITUDE_BY_VELOCITY 76 "Env 3 Amplitude by Velocity Amount"
    LFO_1_AMPLITUDE_BY_RAMP_1 85 "LFO 1 Amplitude by Ramp 1 Amount"
    LFO_2_AMPLITUDE_BY_RAMP_2 95 "LFO 2 Amplitude by Ramp 2 Amount"
    PORTAMENTO_RATE_BY_VELOCITY 45 "Portamento Rate by Velocity Amount"
    VCF_FM_AMOUNT_BY_ENV_3 31 "VCF FM Amount by Env 3 Amount"
    VCF_FM_AMOUNT_BY_PRESSURE 32 "VCF FM Amount by Pressure Amount"
    LFO_1_SPEED_BY_PRESSURE 81 "LFO 1 Speed by Pressure Amount"
    LFO_2_SPEED_BY_KEYBOARD 91 "LFO 2 Speed by Keyboard Amount"
}

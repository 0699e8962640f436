//! The single patch listing of source document 000, row by row: byte, parameter, number of bits,
//! description. Where document 01 or 02 corrects a row, the row says so.

pub use crate::rows::Row;
use crate::rows::{bits, plain, row, signed, Fields, Range};

/// The number of packed bytes in a patch.
pub const PATCH_LENGTH: usize = 134;

/// A list of codes, where the bits don't decide.
const fn codes(least: i8, greatest: i8) -> Range {
    (least, greatest)
}

/// The destinations of Table 3, the last of them Portamento Time; 0 is an unused bus's.
const TABLE_3: Range = codes(0, 32);

/// All 134 rows, each at the index of its place.
pub static ROWS: [Row; PATCH_LENGTH] = LISTING;

const LISTING: [Row; PATCH_LENGTH] = [
    plain(0, bits(6), "Patch Name"),
    plain(1, bits(6), "Patch Name"),
    plain(2, bits(6), "Patch Name"),
    plain(3, bits(6), "Patch Name"),
    plain(4, bits(6), "Patch Name"),
    plain(5, bits(6), "Patch Name"),
    plain(6, bits(6), "Patch Name"),
    plain(7, bits(6), "Patch Name"),
    row(8, 48, bits(2), "Keyboard Mode"),
    row(9, 0, bits(6), "DCO 1 Initial Frequency"),
    row(10, 5, bits(6), "DCO 1 Initial Waveshape"),
    row(11, 3, bits(6), "DCO 1 Initial Pulse Width"),
    row(12, 7, bits(2), "DCO 1 Fixed Modulations (Lever 1, Vibrato)"),
    row(13, 6, bits(2), "DCO 1 Waveform Enable"),
    row(14, 10, bits(6), "DCO 2 Initial Frequency"),
    row(15, 15, bits(6), "DCO 2 Initial Waveshape"),
    row(16, 13, bits(6), "DCO 2 Initial Pulse Width"),
    row(
        17,
        17,
        bits(2),
        "DCO 2 Fixed Modulations (Lever 1, Vibrato)",
    ),
    // 000 prints DCO 1; parameter 16 makes it DCO 2.
    row(18, 16, bits(3), "DCO 2 Waveform Enable"),
    row(19, 12, signed(6), "DCO 2 Detune"),
    row(20, 20, bits(6), "Mix"),
    row(21, 8, bits(2), "DCO 1 Fixed Modulations (Portamento)"),
    row(22, 9, bits(1), "DCO 1 Click"),
    row(
        23,
        18,
        bits(2),
        "DCO 2 Fixed Modulations (Portamento, Keyboard Tracking)",
    ),
    row(24, 19, bits(1), "DCO 2 Click"),
    row(25, 2, bits(2), "DCO Sync Mode"),
    row(26, 21, bits(7), "VCF Initial Frequency"),
    row(27, 24, bits(6), "VCF Initial Resonance"),
    row(28, 25, bits(2), "VCF Fixed Modulations (Lever 1, Vibrato)"),
    row(29, 26, bits(2), "VCF Keyboard Modulation"),
    row(30, 30, bits(6), "VCF FM Initial Amount"),
    row(31, 27, bits(6), "VCA 1 (exponential) Initial Amount"),
    row(32, 44, bits(6), "Portamento Initial Rate"),
    row(33, 46, bits(2), "Lag Mode"),
    row(34, 47, bits(1), "Legato Portamento Enable"),
    row(35, 80, bits(6), "LFO 1 Initial Speed"),
    row(36, 86, bits(2), "LFO 1 Trigger"),
    row(37, 87, bits(1), "LFO 1 Lag Enable"),
    // 3 bits; code 7 of Table 1 is "not used" and refused.
    row(38, 82, codes(0, 6), "LFO 1 Waveshape"),
    // 003 prints 63 as the greatest; the 5 bits decide.
    row(39, 83, bits(5), "LFO 1 Retrigger Point"),
    // 5 bits; 003 decides 0..20.
    row(40, 88, codes(0, 20), "LFO 1 Sampled Source Number"),
    row(41, 84, bits(6), "LFO 1 Initial Amplitude"),
    row(42, 90, bits(6), "LFO 2 Initial Speed"),
    row(43, 96, bits(2), "LFO 2 Trigger"),
    row(44, 97, bits(1), "LFO 2 Lag Enable"),
    // As for LFO 1.
    row(45, 92, codes(0, 6), "LFO 2 Waveshape"),
    row(46, 93, bits(5), "LFO 2 Retrigger Point"),
    row(47, 98, codes(0, 20), "LFO 2 Sampled Source Number"),
    row(48, 94, bits(6), "LFO 2 Initial Amplitude"),
    row(49, 57, bits(3), "Env 1 Trigger Mode"),
    row(50, 50, bits(6), "Env 1 Initial Delay Time"),
    row(51, 51, bits(6), "Env 1 Initial Attack Time"),
    row(52, 52, bits(6), "Env 1 Initial Decay Time"),
    row(53, 53, bits(6), "Env 1 Sustain Level"),
    row(54, 54, bits(6), "Env 1 Initial Release Time"),
    row(55, 55, bits(6), "Env 1 Initial Amplitude"),
    row(56, 59, bits(2), "Env 1 LFO Trigger Mode"),
    row(57, 58, bits(2), "Env 1 Mode"),
    row(58, 67, bits(3), "Env 2 Trigger Mode"),
    row(59, 60, bits(6), "Env 2 Initial Delay Time"),
    row(60, 61, bits(6), "Env 2 Initial Attack Time"),
    row(61, 62, bits(6), "Env 2 Initial Decay Time"),
    row(62, 63, bits(6), "Env 2 Sustain Level"),
    row(63, 64, bits(6), "Env 2 Initial Release Time"),
    row(64, 65, bits(6), "Env 2 Initial Amplitude"),
    row(65, 69, bits(2), "Env 2 LFO Trigger Mode"),
    row(66, 68, bits(2), "Env 2 Mode"),
    row(67, 77, bits(3), "Env 3 Trigger Mode"),
    row(68, 70, bits(6), "Env 3 Initial Delay Time"),
    row(69, 71, bits(6), "Env 3 Initial Attack Time"),
    row(70, 72, bits(6), "Env 3 Initial Decay Time"),
    row(71, 73, bits(6), "Env 3 Sustain Level"),
    row(72, 74, bits(6), "Env 3 Initial Release Time"),
    row(73, 75, bits(6), "Env 3 Initial Amplitude"),
    row(74, 79, bits(2), "Env 3 LFO Trigger Mode"),
    row(75, 78, bits(2), "Env 3 Mode"),
    // 5 bits; Table 2 has 20 codes, and its note takes 0 from this place.
    row(76, 33, codes(1, 20), "Tracking Generator Input Source Code"),
    row(77, 34, bits(6), "Tracking Point 1"),
    row(78, 35, bits(6), "Tracking Point 2"),
    row(79, 36, bits(6), "Tracking Point 3"),
    row(80, 37, bits(6), "Tracking Point 4"),
    row(81, 38, bits(6), "Tracking Point 5"),
    row(82, 40, bits(6), "Ramp 1 Rate"),
    row(83, 41, bits(2), "Ramp 1 Mode"),
    row(84, 42, bits(6), "Ramp 2 Rate"),
    row(85, 43, bits(2), "Ramp 2 Mode"),
    row(86, 1, signed(7), "DCO 1 Frequency by LFO 1 Amount"),
    row(87, 4, signed(7), "DCO 1 PW by LFO 2 Amount"),
    row(88, 11, signed(7), "DCO 2 Frequency by LFO 1 Amount"),
    row(89, 14, signed(7), "DCO 2 PW by LFO 2 Amount"),
    row(90, 22, signed(7), "VCF Frequency by Env 1 Amount"),
    row(91, 23, signed(7), "VCF Frequency by Pressure Amount"),
    row(92, 28, signed(7), "VCA 1 by Velocity Amount"),
    row(93, 29, signed(7), "VCA 2 by Env 2 Amount"),
    row(94, 56, signed(7), "Env 1 Amplitude by Velocity Amount"),
    row(95, 66, signed(7), "Env 2 Amplitude by Velocity Amount"),
    row(96, 76, signed(7), "Env 3 Amplitude by Velocity Amount"),
    row(97, 85, signed(7), "LFO 1 Amplitude by Ramp 1 Amount"),
    row(98, 95, signed(7), "LFO 2 Amplitude by Ramp 2 Amount"),
    row(99, 45, signed(7), "Portamento Rate by Velocity Amount"),
    row(100, 31, signed(7), "VCF FM Amount by Env 3 Amount"),
    row(101, 32, signed(7), "VCF FM Amount by Pressure Amount"),
    row(102, 81, signed(7), "LFO 1 Speed by Pressure Amount"),
    row(103, 91, signed(7), "LFO 2 Speed by Keyboard Amount"),
    // A source has 5 bits, of which Table 2 and 01 allow 0..20. A destination is listed with 5 bits
    // too; Table 3 decides over them (02).
    plain(104, codes(0, 20), "Matrix Modulation Bus 0 Source Code"),
    plain(105, signed(7), "Matrix Modulation Bus 0 Amount"),
    plain(106, TABLE_3, "Matrix Modulation Bus 0 Destination Code"),
    plain(107, codes(0, 20), "Matrix Modulation Bus 1 Source Code"),
    plain(108, signed(7), "Matrix Modulation Bus 1 Amount"),
    plain(109, TABLE_3, "Matrix Modulation Bus 1 Destination Code"),
    plain(110, codes(0, 20), "Matrix Modulation Bus 2 Source Code"),
    plain(111, signed(7), "Matrix Modulation Bus 2 Amount"),
    plain(112, TABLE_3, "Matrix Modulation Bus 2 Destination Code"),
    plain(113, codes(0, 20), "Matrix Modulation Bus 3 Source Code"),
    plain(114, signed(7), "Matrix Modulation Bus 3 Amount"),
    plain(115, TABLE_3, "Matrix Modulation Bus 3 Destination Code"),
    plain(116, codes(0, 20), "Matrix Modulation Bus 4 Source Code"),
    plain(117, signed(7), "Matrix Modulation Bus 4 Amount"),
    plain(118, TABLE_3, "Matrix Modulation Bus 4 Destination Code"),
    plain(119, codes(0, 20), "Matrix Modulation Bus 5 Source Code"),
    plain(120, signed(7), "Matrix Modulation Bus 5 Amount"),
    plain(121, TABLE_3, "Matrix Modulation Bus 5 Destination Code"),
    plain(122, codes(0, 20), "Matrix Modulation Bus 6 Source Code"),
    plain(123, signed(7), "Matrix Modulation Bus 6 Amount"),
    plain(124, TABLE_3, "Matrix Modulation Bus 6 Destination Code"),
    plain(125, codes(0, 20), "Matrix Modulation Bus 7 Source Code"),
    plain(126, signed(7), "Matrix Modulation Bus 7 Amount"),
    plain(127, TABLE_3, "Matrix Modulation Bus 7 Destination Code"),
    plain(128, codes(0, 20), "Matrix Modulation Bus 8 Source Code"),
    plain(129, signed(7), "Matrix Modulation Bus 8 Amount"),
    plain(130, TABLE_3, "Matrix Modulation Bus 8 Destination Code"),
    plain(131, codes(0, 20), "Matrix Modulation Bus 9 Source Code"),
    plain(132, signed(7), "Matrix Modulation Bus 9 Amount"),
    plain(133, TABLE_3, "Matrix Modulation Bus 9 Destination Code"),
];

/// The fields of a patch.
pub(crate) static FIELDS: Fields<PATCH_LENGTH> = Fields::of(&LISTING);

/// The byte place of each parameter number.
static PLACES: [Option<u8>; 256] = {
    let mut places = [None; 256];
    let mut index = 0;
    while index < PATCH_LENGTH {
        let Row {
            place, parameter, ..
        } = LISTING[index];
        if let Some(parameter) = parameter {
            places[parameter as usize] = Some(place);
        }
        index += 1;
    }
    places
};

/// The byte place of a parameter, if it has one.
#[must_use]
pub fn place_of(parameter: u8) -> Option<u8> {
    PLACES[usize::from(parameter)]
}

/// The parameter at a byte place, if it has one.
#[must_use]
pub fn parameter_of(place: u8) -> Option<u8> {
    ROWS.get(usize::from(place))?.parameter
}

/// All bytes that are out of range at a byte place, rising; none for a place that a patch lacks.
#[must_use]
pub fn outside(place: u8) -> Vec<u8> {
    FIELDS.outside(place)
}

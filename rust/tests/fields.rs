//! Every field by its parameter: what it takes, what it gives back, and that it is alone.

use std::collections::BTreeSet;
use std::fs;

use matrix1000::{Edit, Error, NotAllowed, Parameter, Patch};

#[test]
fn parameters_and_places_match_one_to_one() {
    let all: Vec<Parameter> = Parameter::all().collect();
    assert_eq!(all.len(), 96);
    for (place, &parameter) in (8..).zip(&all) {
        assert_eq!(parameter.place(), place);
        assert_eq!(Parameter::try_from(parameter.number()), Ok(parameter));
    }
    let numbers: BTreeSet<u8> = all.iter().map(|parameter| parameter.number()).collect();
    assert_eq!(numbers.len(), 96);
    for number in (0..=255).filter(|number| !numbers.contains(number)) {
        let refused = Error::NotAllowed(NotAllowed::Parameter(number));
        assert_eq!(Parameter::try_from(number), Err(refused));
    }
    for place in (0..8).chain(104..134).chain([255, 256, usize::MAX]) {
        assert_eq!(Parameter::at(place), None);
    }
}

#[test]
fn every_parameter_has_a_name_of_its_own() {
    let names: BTreeSet<&str> = Parameter::all().map(Parameter::name).collect();
    assert_eq!(names.len(), 96);
    assert!(!names.contains(""));
    assert_eq!(format!("{:>4}", Parameter::MIX), " Mix");
    for parameter in Parameter::all() {
        assert_eq!(parameter.name().parse(), Ok(parameter));
        assert_eq!(parameter.to_string().to_lowercase().parse(), Ok(parameter));
        let debug = format!("{parameter:?}");
        let (constant, number) = debug.split_once('(').unwrap();
        assert_eq!(constant.parse(), Ok(parameter));
        assert_eq!(number, format!("{})", parameter.number()));
    }
    assert!("".parse::<Parameter>().is_err());
}

#[test]
fn the_header_for_c_names_the_same_parameters() {
    let header = concat!(env!("CARGO_MANIFEST_DIR"), "/../c/matrix.h");
    let header = fs::read_to_string(header).unwrap();
    let (_, listed) = header.split_once("enum matrix_parameter {").unwrap();
    let (listed, _) = listed.split_once("};").unwrap();
    let listed: Vec<&str> = listed.trim().lines().collect();
    assert_eq!(listed.len(), 96);
    for (line, parameter) in listed.iter().zip(Parameter::all()) {
        let mut words = line.split_whitespace();
        let constant = words.next().unwrap().strip_prefix("MATRIX_").unwrap();
        assert_eq!(words.next(), Some("="));
        let number = words.next().unwrap().trim_end_matches(',');
        assert_eq!(format!("{constant}({number})"), format!("{parameter:?}"));
        assert!(line.ends_with(&format!("/* {parameter} */")), "{line}");
    }
}

/// The register's number, detail and value.
const fn refusal(error: Error) -> (u8, usize, i16) {
    (error.number(), error.detail(), error.value())
}

#[test]
fn a_field_takes_a_range_and_changes_nothing_else() {
    let patch = Patch::default();
    for parameter in Parameter::all() {
        let place = parameter.place();
        let mut taken = Vec::new();
        for value in -300..300 {
            let mut changed = patch;
            match changed.set(parameter, value) {
                Ok(()) => {
                    taken.push(value);
                    assert_eq!(changed.get(parameter), value);
                    let mut expected = patch.to_bytes();
                    expected[place] = value.to_le_bytes()[0];
                    assert_eq!(changed.to_bytes(), expected);
                }
                Err(error) => {
                    assert_eq!(refusal(error), (11, place, value));
                    assert_eq!(changed, patch);
                }
            }
            // An edit does what setting does, and is refused as it is.
            match Edit::new(parameter, value) {
                Ok(edit) => {
                    let mut edited = patch;
                    edited.apply(edit);
                    assert_eq!(edit.value(), value);
                    assert_eq!(edited, changed);
                    assert_eq!(taken.last(), Some(&value));
                }
                Err(error) => {
                    assert_eq!(refusal(error), (11, place, value));
                    assert_ne!(taken.last(), Some(&value));
                }
            }
        }
        assert_eq!(taken, parameter.range().collect::<Vec<_>>(), "{parameter}");
    }
}

/// Byte 19, bytes 86 to 103 and the amounts of the buses.
fn has_sign(place: usize) -> bool {
    place == 19 || (86..=103).contains(&place) || (place >= 105 && place.is_multiple_of(3))
}

#[test]
fn a_value_has_its_sign_where_the_field_has_one() {
    for place in 0..Patch::LENGTH {
        let mut bytes = Patch::default().to_bytes();
        bytes[place] = 0x80;
        let error = Patch::try_from(bytes).unwrap_err();
        let value = if has_sign(place) { -128 } else { 128 };
        assert_eq!(refusal(error), (11, place, value));
        if let Some(parameter) = Parameter::at(place) {
            assert_eq!(*parameter.range().start() < 0, has_sign(place));
        }
    }
}

#[test]
fn the_ranges_that_the_papers_correct() {
    assert_eq!(Parameter::DCO_2_DETUNE.range(), -32..=31);
    assert_eq!(Parameter::VCF_FREQUENCY.range(), 0..=127);
    assert_eq!(Parameter::LFO_1_WAVESHAPE.range(), 0..=6);
    assert_eq!(Parameter::LFO_2_RETRIGGER_POINT.range(), 0..=31);
    assert_eq!(Parameter::LFO_1_SAMPLED_SOURCE.range(), 0..=20);
    assert_eq!(Parameter::TRACKING_SOURCE.range(), 1..=20);
    assert_eq!(Parameter::VCA_2_BY_ENV_2.range(), -64..=63);
}

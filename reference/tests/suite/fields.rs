//! For a caller who sets a field: its range, and the value it has in a patch.

use reference::streams::{inputs, Random};
use reference::{
    apply_edit, place_of, range_of, test_patch, value_of, Outcome, RangeOutcome, ValueOutcome,
};

use crate::kit::{bass, found, outcome, p_with, P};
use crate::model;

/// The answer about a field with this range.
const fn range(least: i16, greatest: i16) -> RangeOutcome {
    RangeOutcome {
        answer: 0,
        detail: 0,
        value: 0,
        least,
        greatest,
    }
}

/// The value that a parameter has.
const fn held(held: i16) -> ValueOutcome {
    ValueOutcome {
        answer: 0,
        detail: 0,
        value: 0,
        held,
    }
}

/// No value, by this refusal.
const fn refused(refusal: Outcome) -> ValueOutcome {
    ValueOutcome {
        answer: refusal.answer,
        detail: refusal.detail,
        value: refusal.value,
        held: 0,
    }
}

#[test]
fn ranges() {
    let fields = model::fields();
    let mut without = Vec::new();
    for parameter in 0..=255 {
        let field = fields.iter().find(|field| field.0 == Some(parameter));
        let Some(&(_, least, greatest)) = field else {
            without.push(parameter);
            assert_eq!(
                range_of(parameter),
                RangeOutcome {
                    answer: 8,
                    ..range(0, 0)
                }
            );
            continue;
        };
        assert_eq!(range_of(parameter), range(least, greatest));
    }
    let above = 100..=255;
    assert!(without
        .into_iter()
        .eq([39, 49, 89, 99].into_iter().chain(above)));
}

#[test]
fn ranges_of_a_few() {
    assert_eq!(range_of(12), range(-32, 31));
    assert_eq!(range_of(21), range(0, 127));
    assert_eq!(range_of(33), range(1, 20));
    assert_eq!(range_of(82), range(0, 6));
    assert_eq!(range_of(48), range(0, 3));
    assert_eq!(range_of(1), range(-64, 63));
    assert_eq!(range_of(91), range(-64, 63));
}

#[test]
fn each_value_of_each_parameter() {
    let fields = model::fields();
    for (place, &(parameter, least, greatest)) in fields.iter().enumerate() {
        let Some(parameter) = parameter else { continue };
        for value in least..=greatest {
            let patch = p_with(place, &[value as u8]);
            assert_eq!(value_of(&patch, parameter), held(value));
            // All others have what P has.
            for other in (0..=99).filter(|&other| other != parameter) {
                let expected = match other {
                    39 | 49 | 89 | 99 => refused(outcome(8, 0)),
                    33 => held(1),
                    _ => held(0),
                };
                assert_eq!(value_of(&patch, other), expected);
            }
        }
    }
}

#[test]
fn the_value_an_edit_sets() {
    let mut random = Random::new(73);
    for _ in 0..20 {
        let mut patch = inputs::good_patch(&mut random);
        for parameter in (0..=99).filter(|&parameter| place_of(parameter).is_some()) {
            let range = range_of(parameter);
            for value in range.least..=range.greatest {
                let sent = value as u8 & 0x7F;
                assert_eq!(apply_edit(&mut patch, parameter, sent), outcome(0, 0));
                assert_eq!(value_of(&patch, parameter), held(value));
            }
        }
    }
}

#[test]
fn the_order_of_refusals() {
    let mut half_used = bass();
    half_used[106] = 1;
    let mut bad = half_used;
    bad[105] = 0xBF;
    for parameter in (0..=255).filter(|&parameter| range_of(parameter).answer == 8) {
        for patch in [&[][..], &[0xFF; 135], &bad, &half_used, &P] {
            assert_eq!(value_of(patch, parameter), refused(outcome(8, 0)));
        }
    }
    for parameter in (0..=99).filter(|&parameter| range_of(parameter).answer == 0) {
        for length in [0, 1, 133, 135, 268] {
            let patch = vec![0xFF; length];
            assert_eq!(value_of(&patch, parameter), refused(outcome(7, 0)));
        }
        assert_eq!(value_of(&[0; 134], parameter), refused(found(76, 0)));
        assert_eq!(value_of(&bad, parameter), refused(found(105, -65)));
        assert_eq!(value_of(&half_used, parameter), refused(outcome(12, 0)));
    }
}

#[test]
fn patches_and_parameters_as_lent() {
    let mut random = Random::new(74);
    for _ in 0..50_000 {
        let patch = inputs::patch(&mut random);
        let parameter = inputs::parameter(&mut random);
        let tested = test_patch(&patch);
        let expected = match place_of(parameter).map(usize::from) {
            None => refused(outcome(8, 0)),
            Some(_) if tested.answer != 0 => refused(tested),
            Some(place) => held(model::value(place, patch[place])),
        };
        assert_eq!(value_of(&patch, parameter), expected);
    }
}

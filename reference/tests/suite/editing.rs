//! Edits change their own field and nothing else; names.

use reference::streams::{inputs, Random};
use reference::{
    apply_bus_edit, apply_edit, place_of, set_name, show_name, test_patch, walk, write_bus_edit,
    write_edit, Outcome,
};

use crate::kit::{bus_message, edit_message, found, outcome, report_outcome};
use crate::model::{self, Field};

#[test]
fn a_remote_edit_changes_its_own_byte() {
    let fields = model::fields();
    let mut random = Random::new(10);
    for _ in 0..10 {
        let before = inputs::good_patch(&mut random);
        for parameter in 0..=255 {
            for value in 0..=255 {
                let mut after = before;
                let answer = apply_edit(&mut after, parameter, value);
                assert_eq!(answer, expected_edit(&fields, parameter, value));
                let mut expected = before;
                if answer.answer == 0 {
                    let place = usize::from(place_of(parameter).unwrap());
                    expected[place] = match parameter {
                        21 => value,
                        _ => value | value << 1 & 0x80,
                    };
                }
                assert_eq!(after, expected);
                assert_eq!(test_patch(&after), outcome(0, 0));
            }
        }
    }
}

fn expected_edit(fields: &[Field], parameter: u8, value: u8) -> Outcome {
    let Some(place) = fields.iter().position(|field| field.0 == Some(parameter)) else {
        return outcome(8, 0);
    };
    if value > 127 {
        return outcome(8, 0);
    }
    let stored = model::stored(parameter, value);
    if model::allows(fields, place, stored) {
        outcome(0, 0)
    } else {
        found(place, model::value(place, stored))
    }
}

#[test]
fn a_matrix_modulation_edit_changes_its_own_bus() {
    let mut random = Random::new(11);
    let before = inputs::good_patch(&mut random);
    for bus in (0..=12).chain([127, 128, 255]) {
        for amount in [0, 1, 0x3F, 0x40, 0x7F, 0x80, 0xFF] {
            for source in 0..=255 {
                for destination in 0..=255 {
                    let mut after = before;
                    let answer = apply_bus_edit(&mut after, bus, source, amount, destination);
                    assert_eq!(answer, expected_bus_edit(bus, source, amount, destination));
                    let mut expected = before;
                    if answer.answer == 0 {
                        let amount = if amount < 0x40 { amount } else { amount + 0x80 };
                        let place = 104 + 3 * usize::from(bus);
                        expected[place..place + 3].copy_from_slice(&[source, amount, destination]);
                    }
                    assert_eq!(after, expected);
                }
            }
        }
    }
}

fn expected_bus_edit(bus: u8, source: u8, amount: u8, destination: u8) -> Outcome {
    let number = usize::from(bus);
    if bus > 9 || amount > 127 {
        outcome(8, 0)
    } else if source > 20 {
        found(104 + 3 * number, source.into())
    } else if destination > 32 {
        found(106 + 3 * number, destination.into())
    } else if (source == 0) != (destination == 0) {
        outcome(12, number)
    } else {
        outcome(0, 0)
    }
}

#[test]
fn reading_writing_and_applying_an_edit_answer_alike() {
    let mut random = Random::new(12);
    for _ in 0..200_000 {
        let mut patch = inputs::good_patch(&mut random);
        let mut out = [0; 9];

        let [parameter, value] = inputs::edit(&mut random).map(|byte| byte & 0x7F);
        let read = walk(&edit_message([parameter, value]), 0);
        let wrote = write_edit(parameter, value, &mut out);
        let applied = apply_edit(&mut patch, parameter, value);
        alike(report_outcome(&read), 6, wrote, 7, applied);

        let bytes = inputs::bus_edit(&mut random).map(|byte| byte & 0x7F);
        let [bus, source, amount, destination] = bytes;
        let read = walk(&bus_message(bytes), 0);
        let wrote = write_bus_edit(bus, source, amount, destination, &mut out);
        let applied = apply_bus_edit(&mut patch, bus, source, amount, destination);
        alike(report_outcome(&read), 11, wrote, 9, applied);
    }
}

fn alike(read: Outcome, opcode: usize, wrote: Outcome, length: usize, applied: Outcome) {
    if read.answer == 0 {
        assert_eq!(read, outcome(0, opcode));
        assert_eq!(wrote, outcome(0, length));
        assert_eq!(applied, outcome(0, 0));
    } else {
        assert_eq!(wrote, read);
        assert_eq!(applied, read);
    }
}

#[test]
fn a_name_set_is_the_name_shown() {
    let mut random = Random::new(13);
    for _ in 0..50_000 {
        let before = inputs::good_patch(&mut random);
        let name = inputs::name(&mut random);
        let mut after = before;
        let expected = if name.len() != 8 {
            outcome(7, 0)
        } else if name.iter().any(|character| !(32..=95).contains(character)) {
            outcome(8, 0)
        } else {
            outcome(0, 0)
        };
        assert_eq!(set_name(&mut after, &name), expected);
        if expected.answer != 0 {
            assert_eq!(after, before);
            continue;
        }
        assert_eq!(after[8..], before[8..]);
        let mut shown = [0xA5; 10];
        assert_eq!(show_name(&after, &mut shown), outcome(0, 8));
        assert_eq!(shown[..8], name);
        assert_eq!(shown[8..], [0xA5; 2]);
    }
}

#[test]
fn a_name_shown_and_set_is_the_same_patch() {
    let mut random = Random::new(14);
    for _ in 0..50_000 {
        let before = inputs::good_patch(&mut random);
        let mut name = [0; 8];
        assert_eq!(show_name(&before, &mut name), outcome(0, 8));
        let mut after = before;
        assert_eq!(set_name(&mut after, &name), outcome(0, 0));
        assert_eq!(after, before);
    }
}

#[test]
fn characters() {
    for code in 0..=63 {
        let mut patch = crate::kit::P;
        patch[3] = code;
        let mut name = [0; 8];
        assert_eq!(show_name(&patch, &mut name), outcome(0, 8));
        assert_eq!(name[3], if code < 32 { code + 64 } else { code });
        assert_eq!(name[0], b'@');
    }
    for character in 0..=255 {
        let mut patch = crate::kit::P;
        let mut name = *b"BASS 1  ";
        name[5] = character;
        let answer = if (32..=95).contains(&character) { 0 } else { 8 };
        assert_eq!(set_name(&mut patch, &name), outcome(answer, 0));
    }
}

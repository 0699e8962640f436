//! Old files that are refused: what keeps its number, and where; what isn't of the form.

use reference::streams::damage::Damage;
use reference::streams::inputs::{bytes, good_patch};
use reference::streams::stored::stored_input;
use reference::streams::Random;
use reference::{outside, reports, to_stored, walk, Outcome, PlacedOutcome};

use crate::kit::{
    bass, bus_message, dump, edit_message, found, glide, operation_message, outcome, p_with,
    placed, report_outcome, with_real_time, OPERATIONS, P, SPLIT,
};
use crate::model;
use crate::stored::{refuses_so, stored};
use crate::stored_model;

/// 15, whose place is 0.
const NOT_OF_THE_FORM: PlacedOutcome = placed(0, outcome(15, 0));

/// An old file is refused so.
fn refused(old: &[u8], refusal: PlacedOutcome) {
    refuses_so(to_stored, old, refusal);
}

/// The dumps of a good file: three patches and a master.
fn parts() -> [Vec<u8>; 4] {
    let master = bytes(&mut Random::new(220), 172);
    [
        dump(0x01, 99, &bass()),
        dump(0x01, 0, &P),
        dump(0x01, 99, &glide()),
        dump(0x03, 3, &master),
    ]
}

/// A good file with something before the dump of an index, or behind the last; and its place.
fn with_between(index: usize, between: &[u8]) -> (Vec<u8>, usize) {
    let parts = parts();
    let (before, behind) = parts.split_at(index);
    let place = before.concat().len();
    (
        [&before.concat(), between, &behind.concat()].concat(),
        place,
    )
}

/// Accepted messages that are no patch and no master.
fn other_messages() -> Vec<Vec<u8>> {
    let operations = OPERATIONS.map(|(opcode, bytes)| operation_message(opcode, bytes));
    let others = [
        edit_message([0x15, 0x7F]).to_vec(),
        bus_message([9, 20, 0x40, 32]),
        dump(0x02, 7, &SPLIT),
        dump(0x0D, 0, &P),
    ];
    let all: Vec<_> = others.into_iter().chain(operations).collect();
    assert!(all.iter().all(|message| walk(message, 0).answer == 0));
    all
}

/// Messages with 4, 5 and 6.
fn foreign_messages() -> Vec<Vec<u8>> {
    let mut master = dump(0x03, 3, &[0; 172]);
    master[3] = 0x05;
    let mut other_device = dump(0x01, 0, &P);
    other_device[2] = 0x02;
    let mut other_manufacturer = dump(0x01, 0, &P);
    other_manufacturer[1] = 0x41;
    let all = vec![
        vec![0xF0, 0xF7],
        vec![0xF0, 0xFE, 0xF7],
        vec![0xF0, 0x7E, 0x7F, 0x06, 0x01, 0xF7],
        other_manufacturer,
        vec![0xF0, 0x10, 0xF7],
        other_device,
        vec![0xF0, 0x10, 0x06, 0xF7],
        vec![0xF0, 0x10, 0x06, 0x05, 0xF7],
        master,
    ];
    let foreign = |message: &Vec<u8>| (4..=6).contains(&walk(message, 0).answer);
    assert!(all.iter().all(foreign));
    all
}

/// Faults of form that may stand before any dump and behind the last.
fn faults_of_form() -> Vec<Vec<u8>> {
    let bytes = [vec![0x00], vec![0xF7], vec![0x90, 0x40, 0x40], vec![0xFE]];
    let messages = [other_messages(), foreign_messages()].concat();
    bytes.into_iter().chain(messages).collect()
}

/// Complete messages that keep their number, one for each number at least.
fn kept_messages() -> Vec<(Vec<u8>, Outcome)> {
    let mut wide = dump(0x01, 5, &P);
    wide[5 + 267] = 0x10;
    let mut wide_first = dump(0x03, 3, &[0; 172]);
    wide_first[5] = 0x7F;
    let mut wrong_sum = dump(0x01, 5, &P);
    wrong_sum[273] ^= 1;
    let mut wrong_master = dump(0x03, 3, &[0xFF; 172]);
    wrong_master[349] ^= 0x40;
    let short = dump(0x01, 5, &P[..133]);
    vec![
        (short, outcome(7, 0)),
        (operation_message(0x0C, &[0]), outcome(7, 0)),
        (dump(0x01, 100, &P), outcome(8, 0)),
        (dump(0x01, 127, &[0xFF; 134]), outcome(8, 0)),
        (dump(0x03, 2, &[0; 172]), outcome(8, 0)),
        (dump(0x0D, 1, &P), outcome(8, 0)),
        (operation_message(0x0A, &[10]), outcome(8, 0)),
        (wide, outcome(9, 267)),
        (wide_first, outcome(9, 0)),
        (wrong_sum, outcome(10, 0)),
        (wrong_master, outcome(10, 0)),
        (dump(0x01, 5, &[0; 134]), found(76, 0)),
        (dump(0x01, 5, &p_with(19, &[0x80])), found(19, -128)),
        (dump(0x0D, 0, &p_with(133, &[33])), found(133, 33)),
        (dump(0x02, 7, &[0xFF; 18]), found(0, 255)),
        (edit_message([0x0C, 0x20]).to_vec(), found(19, 32)),
        (dump(0x01, 5, &p_with(131, &[1])), outcome(12, 9)),
        (bus_message([3, 1, 0, 0]), outcome(12, 3)),
    ]
}

// Not of the form.

#[test]
fn bytes_before_between_and_behind() {
    for index in 0..=4 {
        for byte in 0..=255 {
            for between in [&[byte][..], &[byte, byte], &[0x00, byte]] {
                let (old, place) = with_between(index, between);
                // F0H starts a message that the next one interrupts.
                let refusal = match between.iter().position(|&byte| byte == 0xF0) {
                    None => NOT_OF_THE_FORM,
                    Some(at) if index == 4 && at + 1 == between.len() => {
                        placed(place + at, outcome(2, 0))
                    }
                    Some(at) => placed(place + at, outcome(3, 0)),
                };
                refused(&old, refusal);
            }
        }
    }
    for byte in (0..=255).filter(|&byte| byte != 0xF0) {
        refused(&[byte], NOT_OF_THE_FORM);
    }
}

#[test]
fn real_time_between_dumps() {
    for index in 0..=4 {
        for byte in 0xF8..=0xFF {
            for length in [1, 2, 300] {
                refused(&with_between(index, &vec![byte; length]).0, NOT_OF_THE_FORM);
            }
        }
    }
    // Inside it is dropped, as everywhere.
    let noisy: Vec<u8> = parts()
        .iter()
        .flat_map(|dump| with_real_time(dump))
        .collect();
    assert_eq!(stored(&noisy), stored(&parts().concat()));
    refused(&[&noisy[..], &[0xFE]].concat(), NOT_OF_THE_FORM);
}

#[test]
fn other_messages_between_dumps() {
    for message in [other_messages(), foreign_messages()].concat() {
        for index in 0..=4 {
            refused(&with_between(index, &message).0, NOT_OF_THE_FORM);
            refused(
                &with_between(index, &with_real_time(&message)).0,
                NOT_OF_THE_FORM,
            );
        }
        refused(&message, NOT_OF_THE_FORM);
    }
}

#[test]
fn masters_that_are_not_last() {
    let [one, two, three, master] = parts();
    let file = |parts: &[&Vec<u8>]| {
        parts
            .iter()
            .copied()
            .flatten()
            .copied()
            .collect::<Vec<u8>>()
    };
    for parts in [
        &[&master, &one][..],
        &[&master, &one, &two, &three],
        &[&one, &master, &two],
        &[&one, &two, &master, &three, &master],
        &[&master, &master],
        &[&master, &one, &master],
        &[&one, &two, &three, &master, &master],
        &[&master, &master, &master],
    ] {
        refused(&file(parts), NOT_OF_THE_FORM);
    }
    let other = dump(0x03, 3, &[0; 172]);
    refused(&file(&[&one, &master, &other]), NOT_OF_THE_FORM);
    refused(&file(&[&other, &one, &master]), NOT_OF_THE_FORM);
    stored(&file(&[&one, &two, &master]));
}

#[test]
fn too_many_patches() {
    let mut random = Random::new(221);
    let many: Vec<Vec<u8>> = (0..103)
        .map(|index| dump(0x01, index % 100, &good_patch(&mut random)))
        .collect();
    let master = dump(0x03, 3, &[0; 172]);
    stored(&many[..100].concat());
    stored(&[many[..100].concat(), master.clone()].concat());
    for count in 101..=103 {
        refused(&many[..count].concat(), NOT_OF_THE_FORM);
        refused(
            &[many[..count].concat(), master.clone()].concat(),
            NOT_OF_THE_FORM,
        );
        refused(
            &[master.clone(), many[..count].concat()].concat(),
            NOT_OF_THE_FORM,
        );
    }
    // The same one again and again.
    refused(&many[0].repeat(101), NOT_OF_THE_FORM);
}

// What keeps its number.

#[test]
fn the_first_refused_message_keeps_its_number() {
    for (message, tested) in kept_messages() {
        assert_eq!(report_outcome(&walk(&message, 0)), tested);
        refused(&message, placed(0, tested));
        for index in 0..=4 {
            for message in [&message, &with_real_time(&message)] {
                let (old, place) = with_between(index, message);
                refused(&old, placed(place, tested));
            }
        }
    }
}

/// With the value found, in dumps whose sum is right.
#[test]
fn every_byte_out_of_range_at_every_place() {
    let one = dump(0x01, 0, &P);
    for place in 0..134_u8 {
        let at = usize::from(place);
        for byte in outside(place) {
            let bad = dump(0x01, 99, &p_with(at, &[byte]));
            let tested = found(at, model::value(at, byte));
            let mut out = [0xA5; 500];
            assert_eq!(to_stored(&bad, &mut out), placed(0, tested));
            let old = [&one[..], &[0xFE], &bad, &one].concat();
            assert_eq!(to_stored(&old, &mut out), placed(276, tested));
            assert_eq!(out, [0xA5; 500]);
        }
    }
}

#[test]
fn cut_at_every_place() {
    let whole = parts().concat();
    let starts = [0, 275, 550, 825, 1176];
    assert_eq!(whole.len(), starts[4]);
    for length in 0..=whole.len() {
        let old = &whole[..length];
        let start = starts.into_iter().rfind(|&start| start <= length).unwrap();
        if start == length {
            stored(old);
        } else {
            refused(old, placed(start, outcome(2, 0)));
        }
    }
}

#[test]
fn dumps_that_the_next_one_interrupts() {
    let [one, two, three, master] = parts();
    for length in 1..275 {
        let old = [&one, &two[..length], &three, &master].concat();
        refused(&old, placed(275, outcome(3, 0)));
        let old = [&one[..length], &two, &three].concat();
        refused(&old, placed(0, outcome(3, 0)));
    }
    for length in 1..351 {
        let old = [&one, &master[..length], &master].concat();
        refused(&old, placed(275, outcome(3, 0)));
    }
}

/// Whatever else is wrong with the file, before it or behind it.
#[test]
fn refused_messages_and_faults_of_form() {
    for (message, tested) in kept_messages() {
        for fault in faults_of_form() {
            let (one, master) = (dump(0x01, 0, &P), dump(0x03, 3, &[0; 172]));
            let old = [&fault[..], &message].concat();
            refused(&old, placed(fault.len(), tested));
            let old = [&message[..], &fault].concat();
            refused(&old, placed(0, tested));
            let old = [&one[..], &fault, &one, &message, &master].concat();
            refused(&old, placed(550 + fault.len(), tested));
            let old = [&one[..], &message, &one, &fault, &master].concat();
            refused(&old, placed(275, tested));
        }
        let master = dump(0x03, 3, &[0; 172]);
        let old = [&master[..], &master, &message].concat();
        refused(&old, placed(702, tested));
        let old = [dump(0x01, 0, &P).repeat(101), message].concat();
        refused(&old, placed(101 * 275, tested));
    }
}

#[test]
fn cut_and_interrupted_behind_a_fault_of_form() {
    for fault in faults_of_form() {
        let start = fault.len();
        for length in 1..275 {
            let old = [&fault, &dump(0x01, 0, &P)[..length]].concat();
            refused(&old, placed(start, outcome(2, 0)));
            let old = [&old[..], &dump(0x01, 0, &P)].concat();
            refused(&old, placed(start, outcome(3, 0)));
        }
    }
}

#[test]
fn the_first_of_two_refused() {
    let kept = kept_messages();
    for (first, tested) in &kept {
        for (second, _) in &kept {
            let old = [&dump(0x01, 0, &P)[..], first, second].concat();
            refused(&old, placed(275, *tested));
            // One that is cut comes last.
            let old = [&first[..], &second[..second.len() - 1]].concat();
            refused(&old, placed(0, *tested));
            let old = [&first[..first.len() - 1], second].concat();
            refused(&old, placed(0, outcome(3, 0)));
        }
    }
}

// Damage.

/// Values in place of a byte: nibbles, other data, status and real time.
const VALUES: [u8; 16] = [
    0x00, 0x01, 0x07, 0x08, 0x0F, 0x10, 0x40, 0x7F, 0x80, 0x90, 0xEF, 0xF0, 0xF1, 0xF7, 0xF8, 0xFE,
];

/// Each data byte and the sum of a dump replaced: the file has the answer that the walk gives for
/// that dump, with its start as place.
#[test]
fn a_damaged_dump() {
    let whole = parts().concat();
    for start in [0, 275, 550, 825] {
        let end = if start == 825 { 1176 } else { start + 275 };
        for at in start + 5..end - 1 {
            for byte in VALUES.into_iter().filter(|&byte| byte != whole[at]) {
                let mut old = whole.clone();
                Damage::Replace { at, byte }.apply(&mut old);
                let report = walk(&old, start);
                assert_eq!(report.start, start);
                if report.answer == 0 {
                    // A high nibble of the master, moved by 8.
                    assert_eq!((start, byte ^ whole[at]), (825, 0x08));
                    stored(&old);
                } else {
                    refused(&old, placed(start, report_outcome(&report)));
                }
            }
        }
    }
}

/// Any byte of a file replaced, lost or added, header and end included.
#[test]
fn every_byte_damaged() {
    let parts = parts();
    let whole = [&parts[0], &parts[3]].map(|dump| &dump[..]).concat();
    let mut met = [0; 16];
    for at in 0..whole.len() {
        let replaced = VALUES.map(|byte| Damage::Replace { at, byte });
        let added = VALUES.map(|byte| Damage::Insert { at, byte });
        for damage in replaced
            .into_iter()
            .chain(added)
            .chain([Damage::Lose { at }])
        {
            let mut old = whole.clone();
            damage.apply(&mut old);
            let (expected, new) = stored_model::to_stored(&old, 1000);
            let mut out = vec![0xA5; 1000];
            assert_eq!(to_stored(&old, &mut out), expected, "{damage:?}");
            assert_eq!(out[..new.len()], new);
            assert!(out[new.len()..].iter().all(|&byte| byte == 0xA5));
            met[usize::from(expected.answer)] += 1;
        }
    }
    assert!(
        [0, 2, 3, 7, 8, 9, 10, 11, 15]
            .iter()
            .all(|&answer| met[answer] > 0),
        "{met:?}"
    );
}

// Long files.

#[test]
fn a_mebibyte() {
    let one = dump(0x01, 0, &P);
    let dumps = one.repeat((1 << 20) / 275);
    refused(&dumps, NOT_OF_THE_FORM);
    let last = dump(0x01, 0, &[0; 134]);
    refused(
        &[&dumps[..], &last].concat(),
        placed(dumps.len(), found(76, 0)),
    );
    refused(
        &[&dumps[..], &one[..274]].concat(),
        placed(dumps.len(), outcome(2, 0)),
    );

    refused(&dump(0x03, 3, &[0; 172]).repeat(3_000), NOT_OF_THE_FORM);
    refused(&[0xF0, 0xF7].repeat(1 << 19), NOT_OF_THE_FORM);
    refused(&edit_message([0x15, 0x7F]).repeat(150_000), NOT_OF_THE_FORM);
    for byte in [0x00, 0x90, 0xF7, 0xFE] {
        refused(&vec![byte; 1 << 20], NOT_OF_THE_FORM);
        let behind = [&vec![byte; 1 << 20], &[0xF0][..]].concat();
        refused(&behind, placed(1 << 20, outcome(2, 0)));
    }
    refused(&vec![0xF0; 1 << 20], placed(0, outcome(3, 0)));
    let open = [&[0xF0], &vec![0xFE; 1 << 20][..]].concat();
    refused(&open, placed(0, outcome(2, 0)));
    // One dump among a mebibyte of real time.
    let spread = [&one[..100], &vec![0xFE; 1 << 20], &one[100..]].concat();
    assert_eq!(stored(&spread), stored(&one));
}

/// No file has another answer than these, and what keeps its number is the first to have one.
#[test]
fn files_of_many_seeds() {
    for seed in 0..8_000 {
        let old = stored_input(seed);
        let kept = reports(&old).find(|report| ![0, 4, 5, 6].contains(&report.answer));
        let answer = to_stored(&old, &mut [0; 13_682]);
        match kept {
            Some(report) => {
                assert_eq!(answer, placed(report.start, report_outcome(&report)));
            }
            None if answer.answer == 0 => assert_eq!(answer, placed(0, outcome(0, answer.detail))),
            None => assert_eq!(answer, NOT_OF_THE_FORM),
        }
    }
}

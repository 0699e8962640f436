//! The operations of 000 (04H, 07H, 0AH, 0CH, 0EH): every value of every byte, lengths, the order of
//! refusals, and what they are among other bytes.

use std::collections::BTreeMap;

use reference::streams::{inputs, Random};
use reference::{
    read, reports, walk, write_group_mode, write_request_data, write_set_bank,
    write_store_edit_buffer, write_unlock_bank, Outcome, Reading,
};

use crate::cable_model::{told_by_the_cable, told_by_the_walk};
use crate::found::reads;
use crate::kit::{
    come_with_it, noisy, operation_message, outcome, read_as, record, refuses, report, reported,
    with_real_time, written, OPERATIONS,
};
use crate::model;

/// The opcodes, with the lengths of their messages.
const LENGTHS: [(u8, usize); 5] = [(0x04, 7), (0x07, 7), (0x0A, 6), (0x0C, 5), (0x0E, 8)];

/// Writes an operation by its opcode and the bytes behind it.
fn write(opcode: u8, bytes: &[u8], out: &mut [u8]) -> Outcome {
    match (opcode, bytes) {
        (0x04, &[wanted, number]) => write_request_data(wanted, number, out),
        (0x07, &[total, id]) => write_group_mode(total, id, out),
        (0x0A, &[bank]) => write_set_bank(bank, out),
        (0x0C, []) => write_unlock_bank(out),
        (0x0E, &[number, bank, id]) => write_store_edit_buffer(number, bank, id, out),
        _ => panic!("{opcode} {bytes:?}"),
    }
}

/// An operation that is to be allowed is written and read as such, else refused by both; bytes above
/// 127 are never sent.
fn is_told_apart(opcode: u8, bytes: &[u8], allowed: bool) {
    let message = operation_message(opcode, bytes);
    let length = message.len();
    if allowed {
        assert_eq!(written(|out| write(opcode, bytes, out)), message);
        assert_eq!(walk(&message, 0), report(0, length, 0, opcode.into()));
        let (reading, packed) = record(&message, 0);
        assert_eq!(reading.bytes, come_with_it(bytes));
        assert!(packed.is_empty());
        return;
    }
    // Before an output that is too short.
    for room in [0, length - 1, length, length + 1] {
        refuses(room, outcome(8, 0), |out| write(opcode, bytes, out));
    }
    if bytes.is_ascii() {
        reads(&message, outcome(8, 0));
    }
}

// Every value.

#[test]
fn as_000_lays_them_out() {
    let messages: [(&[u8], Vec<u8>); 5] = [
        (
            &[0xF0, 0x10, 0x06, 0x04, 0x01, 0x63, 0xF7],
            written(|out| write_request_data(1, 99, out)),
        ),
        (
            &[0xF0, 0x10, 0x06, 0x07, 0x06, 0x00, 0xF7],
            written(|out| write_group_mode(6, 0, out)),
        ),
        (
            &[0xF0, 0x10, 0x06, 0x0A, 0x09, 0xF7],
            written(|out| write_set_bank(9, out)),
        ),
        (&[0xF0, 0x10, 0x06, 0x0C, 0xF7], written(write_unlock_bank)),
        (
            &[0xF0, 0x10, 0x06, 0x0E, 0x63, 0x09, 0x7F, 0xF7],
            written(|out| write_store_edit_buffer(99, 9, 0x7F, out)),
        ),
    ];
    for ((expected, message), (opcode, length)) in messages.into_iter().zip(LENGTHS) {
        assert_eq!(message, expected);
        assert_eq!((message[3], message.len()), (opcode, length));
        assert_eq!(walk(&message, 0), report(0, length, 0, opcode.into()));
        let reading = record(&message, 0).0;
        assert_eq!(reading.bytes, come_with_it(&expected[4..length - 1]));
    }
}

#[test]
fn every_type_and_number_of_a_request() {
    let mut accepted = BTreeMap::new();
    for wanted in 0..=255 {
        for number in 0..=255 {
            let allowed = match wanted {
                0 | 3 | 4 => number == 0,
                1 => number <= 99,
                _ => false,
            };
            is_told_apart(0x04, &[wanted, number], allowed);
            if allowed {
                *accepted.entry(wanted).or_insert(0) += 1;
            }
        }
    }
    assert_eq!(accepted, BTreeMap::from([(0, 1), (1, 100), (3, 1), (4, 1)]));
}

#[test]
fn every_total_and_id_of_a_group() {
    let (mut below, mut not_below) = (0, 0);
    for total in 0..=255 {
        for id in 0..=255 {
            let allowed = [2, 3, 4, 5, 6].contains(&total) && [0, 1, 2, 3, 4, 5].contains(&id);
            is_told_apart(0x07, &[total, id], allowed);
            if allowed {
                below += usize::from(id < total);
                not_below += usize::from(id >= total);
            }
        }
    }
    // Each has its range by itself, so an ID that is not below the total is accepted.
    assert_eq!((below, not_below), (2 + 3 + 4 + 5 + 6, 4 + 3 + 2 + 1));
}

#[test]
fn every_bank() {
    for bank in 0..=255 {
        is_told_apart(0x0A, &[bank], bank <= 9);
    }
}

#[test]
fn unlocking_has_no_value() {
    is_told_apart(0x0C, &[], true);
}

#[test]
fn every_byte_of_a_store() {
    let last = [(99, 9, 5), (0, 0, 0), (42, 3, 0x7F)];
    for (number, bank, id) in last {
        for byte in 0..=255 {
            is_told_apart(0x0E, &[byte, bank, id], byte <= 99);
            is_told_apart(0x0E, &[number, byte, id], byte <= 9);
            is_told_apart(0x0E, &[number, bank, byte], byte <= 5 || byte == 0x7F);
            // With another that isn't allowed.
            for others in [[byte, 10, id], [byte, bank, 6], [100, byte, id]] {
                is_told_apart(0x0E, &others, false);
            }
            for others in [[number, byte, 6], [100, bank, byte], [number, 10, byte]] {
                is_told_apart(0x0E, &others, false);
            }
        }
    }
}

#[test]
#[cfg_attr(debug_assertions, ignore = "slow without optimisation")]
fn every_store() {
    let (mut done, mut accepted) = (0, 0);
    for number in 0..=255 {
        for bank in 0..=255 {
            for id in 0..=255 {
                let allowed = number <= 99 && bank <= 9 && (id <= 5 || id == 0x7F);
                let mut out = [0xA5; 9];
                let told = write_store_edit_buffer(number, bank, id, &mut out);
                let message = [0xF0, 0x10, 0x06, 0x0E, number, bank, id, 0xF7, 0xA5];
                let expected = if allowed {
                    (outcome(0, 8), message)
                } else {
                    (outcome(8, 0), [0xA5; 9])
                };
                assert_eq!((told, out), expected);
                done += usize::from(allowed);
                if number <= 127 && bank <= 127 && id <= 127 {
                    let told = walk(&message, 0);
                    accepted += usize::from(told == report(0, 8, 0, 0x0E));
                    assert!(allowed || told == report(0, 8, 8, 0));
                }
            }
        }
    }
    assert_eq!((done, accepted), (100 * 10 * 7, 100 * 10 * 7));
}

#[test]
fn an_id_of_6_is_never_accepted() {
    for byte in 0..=255 {
        refuses(7, outcome(8, 0), |out| write_group_mode(byte, 6, out));
        for bank in 0..=255 {
            refuses(8, outcome(8, 0), |out| {
                write_store_edit_buffer(byte, bank, 6, out)
            });
        }
    }
    for byte in 0..=127 {
        reads(&operation_message(0x07, &[byte, 6]), outcome(8, 0));
        for bank in 0..=127 {
            reads(&operation_message(0x0E, &[byte, bank, 6]), outcome(8, 0));
        }
    }
}

#[test]
fn six_is_left_for_the_other_opcodes() {
    let kinds = [1, 2, 3, 4, 6, 7, 10, 11, 12, 13, 14];
    for opcode in 0..=127 {
        for length in 0..12 {
            let message = operation_message(opcode, &vec![0; length]);
            let told = walk(&message, 0);
            assert_eq!(told.answer == 6, !kinds.contains(&opcode), "{opcode}");
        }
    }
}

// Lengths.

#[test]
fn lengths_of_messages() {
    for ((opcode, bytes), (_, right)) in OPERATIONS.into_iter().zip(LENGTHS) {
        for length in (5..60).chain([275, 351]).filter(|&length| length != right) {
            // Zeros behind the bytes, or what is left of them.
            let mut body = bytes.to_vec();
            body.resize(length - 5, 0);
            let message = operation_message(opcode, &body);
            assert_eq!(message.len(), length);
            reads(&message, outcome(7, 0));
            reads(&with_real_time(&message), outcome(7, 0));
            // Whatever the values are.
            let bad = operation_message(opcode, &vec![0x7F; length - 5]);
            reads(&bad, outcome(7, 0));
        }
    }
}

#[test]
fn a_byte_lost_or_added_anywhere() {
    for ((opcode, bytes), (_, length)) in OPERATIONS.into_iter().zip(LENGTHS) {
        let message = operation_message(opcode, bytes);
        for at in 4..length {
            let added = [&message[..at], &[0x00], &message[at..]].concat();
            assert_eq!(walk(&added, 0), report(0, length + 1, 7, 0));
        }
        for at in 4..length - 1 {
            let lost = [&message[..at], &message[at + 1..]].concat();
            assert_eq!(walk(&lost, 0), report(0, length - 1, 7, 0));
        }
    }
}

#[test]
fn the_bytes_of_one_kind_behind_the_opcode_of_another() {
    for (_, bytes) in OPERATIONS {
        for (opcode, right) in LENGTHS {
            let message = operation_message(opcode, bytes);
            let length = message.len();
            let expected = match model::operation(&message[3..length - 1]) {
                None => outcome(7, 0),
                Some(false) => outcome(8, 0),
                Some(true) => outcome(0, opcode.into()),
            };
            assert_eq!(walk(&message, 0), reported(0, length, expected));
            assert_eq!(expected.answer == 7, length != right);
        }
    }
}

#[test]
fn outputs_of_every_length() {
    for ((opcode, bytes), (_, needed)) in OPERATIONS.into_iter().zip(LENGTHS) {
        for length in 0..40 {
            if length < needed {
                refuses(length, outcome(13, 0), |out| write(opcode, bytes, out));
                continue;
            }
            let mut out = vec![0xA5; length];
            assert_eq!(write(opcode, bytes, &mut out), outcome(0, needed));
            assert_eq!(out[..needed], operation_message(opcode, bytes));
            assert!(out[needed..].iter().all(|&byte| byte == 0xA5));
        }
    }
}

#[test]
fn no_buffer_is_needed() {
    for (opcode, bytes) in OPERATIONS {
        let message = operation_message(opcode, bytes);
        let expected = Reading {
            start: 0,
            end: message.len(),
            answer: 0,
            detail: opcode.into(),
            value: 0,
            noise: 0,
            bytes: come_with_it(bytes),
        };
        for length in [0, 1, 172] {
            let mut buffer = vec![0xA5; length];
            assert_eq!(read(&message, 0, &mut buffer), expected);
            assert!(buffer.iter().all(|&byte| byte == 0xA5));
        }
    }
}

// The order of refusals.

#[test]
fn a_message_with_every_fault_mended_in_turn() {
    let mut message = vec![0xF0, 0x41, 0x02, 0x05, 100, 10, 6, 0x00, 0xF7];
    reads(&message, outcome(4, 0));
    message[1] = 0x10;
    reads(&message, outcome(5, 0));
    message[2] = 0x06;
    reads(&message, outcome(6, 0));
    message[3] = 0x0E;
    reads(&message, outcome(7, 0));
    message.remove(7);
    for (at, byte) in [(4, 99), (5, 9), (6, 5)] {
        reads(&message, outcome(8, 0));
        message[at] = byte;
    }
    assert_eq!(walk(&message, 0), report(0, 8, 0, 0x0E));
}

#[test]
fn a_writer_with_every_fault_mended_in_turn() {
    for (number, bank, id) in [(100, 10, 6), (99, 10, 6), (99, 9, 6)] {
        refuses(7, outcome(8, 0), |out| {
            write_store_edit_buffer(number, bank, id, out)
        });
    }
    refuses(7, outcome(13, 0), |out| {
        write_store_edit_buffer(99, 9, 5, out)
    });
    refuses(6, outcome(8, 0), |out| write_request_data(2, 100, out));
    refuses(6, outcome(8, 0), |out| write_request_data(1, 100, out));
    refuses(6, outcome(13, 0), |out| write_request_data(1, 99, out));
    refuses(6, outcome(8, 0), |out| write_group_mode(7, 6, out));
    refuses(6, outcome(8, 0), |out| write_group_mode(6, 6, out));
    refuses(6, outcome(13, 0), |out| write_group_mode(6, 5, out));
    refuses(5, outcome(8, 0), |out| write_set_bank(10, out));
    refuses(5, outcome(13, 0), |out| write_set_bank(9, out));
    refuses(4, outcome(13, 0), write_unlock_bank);
}

// Among other bytes.

/// What the reports and the plain model say of a stream is the same.
fn as_the_model(stream: &[u8]) {
    let found = reports(stream).map(|report| {
        let judged = (report.answer, report.detail, report.value);
        (report.start, report.end, judged, report.noise)
    });
    assert!(found.eq(model::reports(stream)), "{stream:02X?}");
}

#[test]
fn every_byte_in_place_of_every_byte() {
    for (opcode, bytes) in OPERATIONS {
        let message = operation_message(opcode, bytes);
        let next = operation_message(0x0A, &[9]);
        for at in 0..message.len() {
            for byte in 0..=255 {
                let mut replaced = message.clone();
                replaced[at] = byte;
                as_the_model(&[&next[..], &replaced, &next].concat());
            }
        }
    }
}

#[test]
fn cut_and_interrupted_at_every_place() {
    for (opcode, bytes) in OPERATIONS {
        let message = operation_message(opcode, bytes);
        let (whole, opcode) = (message.len(), usize::from(opcode));
        for length in 1..whole {
            let part = &message[..length];
            assert_eq!(walk(part, 0), report(0, length, 2, 0));
            for status in (0x80..=0xF6).filter(|&status| status != 0xF0) {
                let stream = [part, &[status], &message].concat();
                let next = report(length + 1, length + 1 + whole, 0, opcode);
                assert!(reports(&stream).eq([report(0, length, 3, 0), next]));
            }
            let stream = [part, &message].concat();
            let next = report(length, length + whole, 0, opcode);
            assert!(reports(&stream).eq([report(0, length, 3, 0), next]));
        }
    }
}

#[test]
fn real_time_at_every_place() {
    for (opcode, bytes) in OPERATIONS {
        let message = operation_message(opcode, bytes);
        for at in 1..message.len() {
            for (length, tick) in [(1, 0xF8), (2, 0xFE), (400, 0xFF)] {
                let noise = vec![tick; length];
                let stream = [&message[..at], &noise, &message[at..]].concat();
                let (reading, _) = record(&stream, 0);
                let expected = report(0, stream.len(), 0, opcode.into());
                assert_eq!(read_as(&reading), noisy(length, expected));
                assert_eq!(reading.bytes, come_with_it(bytes));
            }
        }
    }
}

#[test]
fn from_the_cable_as_from_a_file() {
    let whole: Vec<u8> = OPERATIONS
        .iter()
        .flat_map(|(opcode, bytes)| operation_message(*opcode, bytes))
        .collect();
    let stream = [
        &whole[..],
        &operation_message(0x07, &[2, 6]),
        &with_real_time(&operation_message(0x0E, &[99, 9, 5])),
        &operation_message(0x0C, &[0]),
        &operation_message(0x05, &[]),
        &operation_message(0x0E, &[1, 2])[..6],
    ]
    .concat();
    let expected = told_by_the_walk(&stream);
    let answers = expected.iter().map(|told| told.report.answer);
    assert!(answers.eq([0, 0, 0, 0, 0, 8, 0, 7, 6, 2]));
    for (told, (_, bytes)) in expected.iter().zip(OPERATIONS) {
        assert_eq!(told.bytes, come_with_it(bytes));
    }
    for size in 1..=stream.len() {
        assert_eq!(told_by_the_cable(&stream, &[size]), expected);
    }
}

#[test]
fn operations_as_handed_in() {
    let mut random = Random::new(150);
    for _ in 0..20_000 {
        let (request, group) = (inputs::request(&mut random), inputs::group(&mut random));
        let (bank, store) = (inputs::bank_number(&mut random), inputs::store(&mut random));
        let handed: [(u8, &[u8]); 4] = [
            (0x04, &request),
            (0x07, &group),
            (0x0A, &bank),
            (0x0E, &store),
        ];
        for (opcode, bytes) in handed {
            let told = [&[opcode], bytes].concat();
            let allowed = model::operation(&told).unwrap();
            is_told_apart(opcode, bytes, allowed);
        }
    }
}

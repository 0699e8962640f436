//! What the tests share.

use reference::{apply_bus_edit, read, set_name, Outcome, PlacedOutcome, Reading, Report};

/// Document 01's P: zeros with byte 76 = 1.
pub const P: [u8; 134] = {
    let mut patch = [0; 134];
    patch[76] = 1;
    patch
};

/// P with these bytes at a place.
pub fn p_with(place: usize, bytes: &[u8]) -> [u8; 134] {
    let mut patch = P;
    patch[place..][..bytes.len()].copy_from_slice(bytes);
    patch
}

/// A split named `KEYS+B`: patches 12 and 99; the left zone to 60, twelve lower and sent; the right
/// zone to 61, twelve higher; the balance at -31; voices 6/0.
pub const SPLIT: [u8; 18] = [
    0x0B, 0x05, 0x19, 0x13, 0x2B, 0x02, 0, 0, 12, 99, 60, 0xF4, 1, 61, 12, 0, 0xE1, 2,
];

/// The same with this byte at a place.
pub fn split_with(place: usize, byte: u8) -> [u8; 18] {
    let mut split = SPLIT;
    split[place] = byte;
    split
}

/// P named `BASS 1  `.
pub fn bass() -> [u8; 134] {
    let mut patch = P;
    assert_eq!(set_name(&mut patch, b"BASS 1  "), outcome(0, 0));
    patch
}

/// The same with a lever routed to Portamento Time by the first bus and the last.
pub fn glide() -> [u8; 134] {
    let mut patch = bass();
    for bus in [0, 9] {
        assert_eq!(apply_bus_edit(&mut patch, bus, 18, 0x14, 32), outcome(0, 0));
    }
    patch
}

/// A patch with this sum. Byte 26 makes it up, since it takes all seven bits.
pub fn with_sum(patch: [u8; 134], sum: u8) -> [u8; 134] {
    let mut patch = patch;
    patch[26] = 0;
    let others: usize = patch.iter().map(|&byte| usize::from(byte)).sum();
    patch[26] = ((usize::from(sum) + 128 - others % 128) % 128) as u8;
    patch
}

/// An answer other than 11, with its detail. The value is 0.
pub const fn outcome(answer: u8, detail: usize) -> Outcome {
    assert!(answer != 11);
    Outcome {
        answer,
        detail,
        value: 0,
    }
}

/// 11 with the place and the value found there.
pub const fn found(place: usize, value: i16) -> Outcome {
    Outcome {
        answer: 11,
        detail: place,
        value,
    }
}

/// An answer with its place.
pub const fn placed(place: usize, outcome: Outcome) -> PlacedOutcome {
    let Outcome {
        answer,
        detail,
        value,
    } = outcome;
    PlacedOutcome {
        answer,
        detail,
        value,
        place,
    }
}

/// A report written as document 01 prints it, for an answer other than 11. No real time.
pub const fn report(start: usize, end: usize, answer: u8, detail: usize) -> Report {
    reported(start, end, outcome(answer, detail))
}

/// The report of a message with this answer and no real time.
pub const fn reported(start: usize, end: usize, tested: Outcome) -> Report {
    let Outcome {
        answer,
        detail,
        value,
    } = tested;
    Report {
        start,
        end,
        answer,
        detail,
        value,
        noise: 0,
    }
}

/// The same report of a message with this much real time.
pub const fn noisy(noise: usize, report: Report) -> Report {
    Report { noise, ..report }
}

/// What a reading has in common with the walk's report.
pub const fn read_as(reading: &Reading) -> Report {
    let report = reported(reading.start, reading.end, reading_outcome(reading));
    noisy(reading.noise, report)
}

/// The answer that a report holds.
pub const fn report_outcome(report: &Report) -> Outcome {
    Outcome {
        answer: report.answer,
        detail: report.detail,
        value: report.value,
    }
}

/// The answer that a reading holds.
pub const fn reading_outcome(reading: &Reading) -> Outcome {
    Outcome {
        answer: reading.answer,
        detail: reading.detail,
        value: reading.value,
    }
}

/// A dump of packed bytes with their sum, untested, for building messages with faults.
pub fn dump(opcode: u8, second: u8, packed: &[u8]) -> Vec<u8> {
    let mut message = vec![0xF0, 0x10, 0x06, opcode, second];
    message.extend(packed.iter().flat_map(|byte| [byte % 16, byte / 16]));
    let sum: u32 = packed.iter().map(|&byte| u32::from(byte)).sum();
    message.extend([(sum % 128) as u8, 0xF7]);
    message
}

/// A remote edit's message: parameter, value.
pub const fn edit_message([parameter, value]: [u8; 2]) -> [u8; 7] {
    [0xF0, 0x10, 0x06, 0x06, parameter, value, 0xF7]
}

/// A matrix modulation edit's message: bus, source, amount, destination.
pub fn bus_message(bytes: [u8; 4]) -> Vec<u8> {
    [&[0xF0, 0x10, 0x06, 0x0B], &bytes[..], &[0xF7]].concat()
}

/// An operation's message: its opcode and the bytes behind it.
pub fn operation_message(opcode: u8, bytes: &[u8]) -> Vec<u8> {
    [&[0xF0, 0x10, 0x06, opcode], bytes, &[0xF7]].concat()
}

/// An operation of each kind that is accepted: opcode, bytes behind it.
pub const OPERATIONS: [(u8, &[u8]); 5] = [
    (0x04, &[0x01, 0x05]),
    (0x07, &[0x06, 0x00]),
    (0x0A, &[0x05]),
    (0x0C, &[]),
    (0x0E, &[0x05, 0x01, 0x7F]),
];

/// The bytes of an operation as they come with the answer.
pub fn come_with_it(bytes: &[u8]) -> [u8; 4] {
    let mut four = [0; 4];
    four[..bytes.len()].copy_from_slice(bytes);
    four
}

/// Reads with a buffer that must be long enough, and gives what was put into it.
pub fn record(input: &[u8], place: usize) -> (Reading, Vec<u8>) {
    let mut buffer = [0xA5; 172];
    let reading = read(input, place, &mut buffer);
    let length = match (reading.answer, reading.detail) {
        (0, 0x01 | 0x0D) => 134,
        (0, 0x02) => 18,
        (0, 0x03) => 172,
        _ => 0,
    };
    assert!(buffer[length..].iter().all(|&byte| byte == 0xA5));
    (reading, buffer[..length].to_vec())
}

/// What a writer puts into a long enough output; it must be done.
pub fn written(write: impl FnOnce(&mut [u8]) -> Outcome) -> Vec<u8> {
    let mut out = vec![0xA5; 400];
    let done = write(&mut out);
    let detail = done.detail;
    assert_eq!(done, outcome(0, detail));
    assert!(out[detail..].iter().all(|&byte| byte == 0xA5));
    out.truncate(detail);
    out
}

/// A writer refuses and keeps its output of this length.
pub fn refuses(length: usize, refusal: Outcome, write: impl FnOnce(&mut [u8]) -> Outcome) {
    let mut out = vec![0xA5; length];
    assert_eq!(write(&mut out), refusal);
    assert!(out.iter().all(|&byte| byte == 0xA5));
}

/// A message with real time in front of every byte but the first.
pub fn with_real_time(message: &[u8]) -> Vec<u8> {
    let mut real_time = (0xF8..=0xFF).cycle();
    let pairs = message.iter().flat_map(|&byte| {
        let tick: u8 = real_time.next().unwrap();
        [tick, byte]
    });
    pairs.skip(1).collect()
}

/// A message's bytes less real time.
pub fn less_real_time(message: &[u8]) -> Vec<u8> {
    message
        .iter()
        .copied()
        .filter(|&byte| byte < 0xF8)
        .collect()
}

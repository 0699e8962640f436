//! Splits of the Matrix-6R (02H), by 003's layout: its fields, lengths and numbers, and what every
//! byte in place of a nibble is answered.

use reference::streams::{inputs, stream, Random, CYCLE};
use reference::{
    outside_split, read, reports, test_split, walk, write_split, Outcome, Reading, Report,
};

use crate::cable_model::{told_by_the_cable, told_by_the_walk};
use crate::found::reads;
use crate::kit::{
    dump, edit_message, found, less_real_time, noisy, outcome, read_as, record, refuses, report,
    reported, split_with, with_real_time, written, SPLIT,
};
use crate::model;

/// A split's dump with its sum. Nothing is tested.
fn split_dump(number: u8, split: &[u8]) -> Vec<u8> {
    dump(0x02, number, split)
}

/// Splits at the edges: zeros, the least and the greatest value everywhere, one whose sum is 10H.
fn edges() -> [[u8; 18]; 4] {
    let fields = model::split_fields();
    let least = std::array::from_fn(|place| fields[place].1 as u8);
    let greatest = std::array::from_fn(|place| fields[place].2 as u8);
    let mut sum_10h = [0; 18];
    sum_10h[8] = 0x10;
    [[0; 18], least, greatest, sum_10h]
}

/// Those, the one of the kit, and a few more.
fn several() -> Vec<[u8; 18]> {
    let mut random = Random::new(140);
    let more = (0..20).map(|_| inputs::good_split(&mut random));
    edges().into_iter().chain([SPLIT]).chain(more).collect()
}

#[test]
fn as_003_lays_it_out() {
    let dump = written(|out| write_split(7, &SPLIT, out));
    let expected = [
        [0xF0, 0x10, 0x06, 0x02, 0x07].as_slice(),
        // The name: KEYS+B, each character by its lower six bits.
        &[0xB, 0x0, 0x5, 0x0, 0x9, 0x1, 0x3, 0x1, 0xB, 0x2, 0x2, 0x0],
        // Two bytes not used, two patch numbers.
        &[0x0, 0x0, 0x0, 0x0, 0xC, 0x0, 0x3, 0x6],
        // The left zone: limit 60, transpose -12, MIDI out.
        &[0xC, 0x3, 0x4, 0xF, 0x1, 0x0],
        // The right zone: limit 61, transpose 12, no MIDI out.
        &[0xD, 0x3, 0xC, 0x0, 0x0, 0x0],
        // The balance at -31, voices 6/0.
        &[0x1, 0xE, 0x2, 0x0],
        &[0x35, 0xF7],
    ];
    assert_eq!(dump, expected.concat());
    assert_eq!(walk(&dump, 0), report(0, 43, 0, 2));
    let (reading, packed) = record(&dump, 0);
    assert_eq!(reading.bytes, [7, 0, 0, 0]);
    assert_eq!(packed, SPLIT);
}

#[test]
fn every_byte_at_every_place() {
    let fields = model::split_fields();
    for (place, &(_, least, greatest)) in fields.iter().enumerate() {
        let (mut below, mut above) = (0, 0);
        for byte in 0..=255 {
            let split = split_with(place, byte);
            let value = model::split_value(place, byte);
            let dump = split_dump(7, &split);
            if (least..=greatest).contains(&value) {
                assert_eq!(test_split(&split), outcome(0, 0));
                assert_eq!(written(|out| write_split(7, &split, out)), dump);
                assert_eq!(record(&dump, 0).1, split);
                continue;
            }
            below += usize::from(value < least);
            above += usize::from(value > greatest);
            let refusal = found(place, value);
            assert_eq!(test_split(&split), refusal);
            // Before an output that is too short.
            for length in [0, 42, 43] {
                refuses(length, refusal, |out| write_split(7, &split, out));
            }
            reads(&dump, refusal);
            reads(&with_real_time(&dump), refusal);
        }
        let expected = match place {
            11 | 14 | 16 => (96, 96),
            _ => (0, 255 - greatest as usize),
        };
        assert_eq!((below, above), expected, "{place}");
    }
}

#[test]
fn the_bytes_outside_are_those_of_the_papers() {
    let fields = model::split_fields();
    for place in 0..=255 {
        let at = usize::from(place);
        let outside = |&byte: &u8| at < 18 && !model::split_allows(&fields, at, byte);
        let expected: Vec<u8> = (0..=255).filter(outside).collect();
        assert_eq!(outside_split(place), expected);
        assert_eq!(expected.is_empty(), place > 17);
    }
}

#[test]
fn named_values_bound_nothing() {
    // The balance is described from -31 to +31 and has six bits with a sign; patch numbers have
    // seven bits, and 003 names no last one in the layout; bytes not used have their bits too.
    let ends = [(16, 0xE0), (8, 100), (9, 127), (6, 63), (7, 63)];
    for (place, byte) in ends {
        assert_eq!(test_split(&split_with(place, byte)), outcome(0, 0));
    }
    assert_eq!(test_split(&split_with(16, 0xDF)), found(16, -33));
    assert_eq!(test_split(&split_with(16, 0x20)), found(16, 32));
    assert_eq!(test_split(&split_with(7, 64)), found(7, 64));
}

#[test]
fn the_lowest_place_is_the_one_found() {
    let mut random = Random::new(141);
    let fields = model::split_fields();
    for _ in 0..20_000 {
        let split = inputs::out_of_range_split(&mut random);
        let outside = |&place: &usize| !model::split_allows(&fields, place, split[place]);
        let place = (0..18).find(outside).unwrap();
        let refusal = found(place, model::split_value(place, split[place]));
        assert_eq!(test_split(&split), refusal);
        refuses(43, refusal, |out| write_split(0, &split, out));
        assert_eq!(walk(&split_dump(0, &split), 0), reported(0, 43, refusal));
    }
}

#[test]
fn twelve_is_never_given() {
    let mut random = Random::new(142);
    for _ in 0..20_000 {
        let split = inputs::bytes(&mut random, 18);
        assert!([0, 11].contains(&test_split(&split).answer));
        assert!([0, 11].contains(&walk(&split_dump(0, &split), 0).answer));
    }
    let mut met = [0; 13];
    for seed in 0..40 * CYCLE {
        let input = stream(seed);
        for report in reports(&input) {
            let message = less_real_time(&input[report.start..report.end]);
            if message.starts_with(&[0xF0, 0x10, 0x06, 0x02]) {
                met[usize::from(report.answer)] += 1;
            }
        }
    }
    // All that a message with this opcode can be answered.
    let answers: Vec<usize> = (0..13).filter(|&answer| met[answer] > 0).collect();
    assert_eq!(answers, [0, 2, 3, 7, 8, 9, 10, 11]);
}

// Numbers and lengths.

#[test]
fn numbers_to_49() {
    for number in 0..=255 {
        if number <= 49 {
            let dump = written(|out| write_split(number, &SPLIT, out));
            assert_eq!(dump, split_dump(number, &SPLIT));
            assert_eq!(record(&dump, 0).0.bytes, [number, 0, 0, 0]);
        } else {
            refuses(43, outcome(8, 0), |out| write_split(number, &SPLIT, out));
        }
        if (50..=127).contains(&number) {
            reads(&split_dump(number, &SPLIT), outcome(8, 0));
        }
    }
}

#[test]
fn lengths_of_messages() {
    let whole = split_dump(49, &SPLIT);
    assert_eq!(whole.len(), 43);
    for length in 5..120 {
        if length == 43 {
            continue;
        }
        // Zeros behind the data, or what is left of them.
        let mut message = whole[..42].to_vec();
        message.resize(length - 1, 0);
        message.push(0xF7);
        reads(&message, outcome(7, 0));
        reads(&with_real_time(&message), outcome(7, 0));
    }
    for at in 4..42 {
        // One byte lost makes the 42 that 003 prints.
        let lost = [&whole[..at], &whole[at + 1..]].concat();
        assert_eq!(walk(&lost, 0), report(0, 42, 7, 0));
        let added = [&whole[..at], &[0], &whole[at..]].concat();
        assert_eq!(walk(&added, 0), report(0, 44, 7, 0));
    }
}

#[test]
fn lengths_of_lent_splits() {
    for length in (0..100).filter(|&length| length != 18) {
        assert_eq!(test_split(&vec![0; length]), outcome(7, 0));
        assert_eq!(test_split(&vec![0xFF; length]), outcome(7, 0));
        refuses(43, outcome(7, 0), |out| {
            write_split(0, &vec![0; length], out)
        });
    }
    assert_eq!(test_split(&[0; 18]), outcome(0, 0));
}

#[test]
fn fifty_dummy_splits_of_a_matrix_1000() {
    // 000: F0H 10H 06H 02H, 36 bytes of data, F7H. 003 decides, so the length is wrong.
    let data: [[u8; 36]; 3] = [[0; 36], [0x0F; 36], [0x7F; 36]];
    for data in data {
        let dummy = [&[0xF0, 0x10, 0x06, 0x02], &data[..], &[0xF7]].concat();
        assert_eq!(dummy.len(), 41);
        reads(&dummy, outcome(7, 0));
        let stream = dummy.repeat(50);
        let expected = (0..50).map(|number| report(41 * number, 41 * (number + 1), 7, 0));
        assert!(reports(&stream).eq(expected));
    }
}

#[test]
fn buffers_and_outputs_too_short() {
    let dump = split_dump(49, &SPLIT);
    for length in 0..18 {
        let mut buffer = [0xA5; 18];
        let expected = Reading {
            start: 0,
            end: 43,
            answer: 13,
            detail: 0,
            value: 0,
            noise: 0,
            bytes: [0; 4],
        };
        assert_eq!(read(&dump, 0, &mut buffer[..length]), expected);
        assert_eq!(buffer, [0xA5; 18]);
    }
    for length in 0..43 {
        refuses(length, outcome(13, 0), |out| write_split(49, &SPLIT, out));
    }
    for length in 43..60 {
        let mut out = vec![0xA5; length];
        assert_eq!(write_split(49, &SPLIT, &mut out), outcome(0, 43));
        assert_eq!(out[..43], dump);
        assert!(out[43..].iter().all(|&byte| byte == 0xA5));
    }
}

// The order of refusals.

/// The left transpose at -33 and the voices at 4.
fn twice_bad() -> [u8; 18] {
    let mut split = split_with(17, 4);
    split[11] = 0xDF;
    split
}

#[test]
fn a_message_with_every_fault_mended_in_turn() {
    let mut message = split_dump(50, &twice_bad());
    message[41] ^= 1;
    message[40] |= 0x40;
    message[20] |= 0x10;
    message.insert(30, 0x00);
    reads(&message, outcome(7, 0));
    message.remove(30);
    reads(&message, outcome(8, 0));
    message[4] = 49;
    reads(&message, outcome(9, 15));
    message[20] &= 0x0F;
    reads(&message, outcome(9, 35));
    message[40] &= 0x0F;
    reads(&message, outcome(10, 0));
    message[41] ^= 1;
    reads(&message, found(11, -33));
    reads(&split_dump(49, &split_with(17, 4)), found(17, 4));
    let good = split_dump(49, &SPLIT);
    let mut buffer = [0xA5; 17];
    assert_eq!(read(&good, 0, &mut buffer).answer, 13);
    assert_eq!(walk(&good, 0), report(0, 43, 0, 2));
}

#[test]
fn a_writer_with_every_fault_mended_in_turn() {
    refuses(42, outcome(7, 0), |out| write_split(50, &[0xFF; 17], out));
    refuses(42, outcome(7, 0), |out| write_split(50, &[0xFF; 19], out));
    refuses(42, outcome(8, 0), |out| write_split(50, &twice_bad(), out));
    refuses(42, outcome(8, 0), |out| write_split(255, &SPLIT, out));
    refuses(42, found(11, -33), |out| write_split(49, &twice_bad(), out));
    refuses(42, found(17, 4), |out| {
        write_split(49, &split_with(17, 4), out)
    });
    refuses(42, outcome(13, 0), |out| write_split(49, &SPLIT, out));
}

// One byte replaced.

/// What another nibble at an index of the data is answered, from its packed byte before and after:
/// moved by 128 it leaves the sum, and is out of range.
fn other_nibble(dump: &[u8], index: usize, nibble: u8) -> Outcome {
    let place = index / 2;
    let mut pair = [dump[5 + 2 * place], dump[6 + 2 * place]];
    let before = pair[0] + 16 * pair[1];
    pair[index % 2] = nibble;
    let after = pair[0] + 16 * pair[1];
    if before.abs_diff(after) == 128 {
        found(place, model::split_value(place, after))
    } else {
        outcome(10, 0)
    }
}

/// The reports of a split with a byte in place of the nibble at an index of its data.
fn replaced(dump: &[u8], index: usize, byte: u8) -> Vec<Report> {
    let at = 5 + index;
    match byte {
        _ if byte == dump[at] => vec![report(0, 43, 0, 2)],
        0x00..=0x0F => vec![reported(0, 43, other_nibble(dump, index, byte))],
        0x10..=0x7F => vec![report(0, 43, 9, index)],
        // No nibble is 10H; a checksum may be, and then has no device behind it.
        0xF0 => {
            let answer = if dump[at + 1] == 0x10 { 5 } else { 4 };
            vec![report(0, at, 3, 0), report(at, 43, answer, 0)]
        }
        0x80..=0xF6 => vec![report(0, at, 3, 0)],
        0xF7 => vec![report(0, at + 1, 7, 0)],
        0xF8..=0xFF => vec![noisy(1, report(0, 43, 7, 0))],
    }
}

/// The same reports from a place on.
fn moved(reports: &[Report], by: usize) -> impl Iterator<Item = Report> + '_ {
    reports.iter().map(move |report| Report {
        start: report.start + by,
        end: report.end + by,
        ..*report
    })
}

#[test]
fn every_nibble_replaced_by_every_byte() {
    let edit = edit_message([0x15, 0x7F]);
    let mut met = [0; 12];
    for (number, split) in several().iter().enumerate() {
        let dump = split_dump(number as u8, split);
        for (index, byte) in (0..36).flat_map(|index| (0..=255).map(move |byte| (index, byte))) {
            let mut damaged = dump.clone();
            damaged[5 + index] = byte;
            let expected = replaced(&dump, index, byte);
            assert!(reports(&damaged).eq(expected.iter().copied()));
            met[usize::from(expected[0].answer)] += 1;

            let stream = [&edit, &damaged[..], &edit].concat();
            let around = [report(0, 7, 0, 6), report(50, 57, 0, 6)];
            let all = around[..1].iter().copied();
            let all = all.chain(moved(&expected, 7)).chain([around[1]]);
            assert!(reports(&stream).eq(all));
            // It yields no record unless it is as it was.
            for own in moved(&expected, 7) {
                let (reading, packed) = record(&stream, own.start);
                assert_eq!(read_as(&reading), own);
                let kept = byte == dump[5 + index];
                assert_eq!(packed == split, kept);
                assert_eq!(reading.bytes[0], if kept { number as u8 } else { 0 });
            }
        }
    }
    // Of 25 splits with 36 nibbles: 15 others each, of which each of the high ones has one moved
    // by 8; 112 wide bytes; 119 status bytes but F7H; that, and eight of real time.
    let nibbles = 25 * 36;
    let expected = [1, 0, 0, 119, 0, 0, 0, 9, 0, 112, 0, 0].map(|each| each * nibbles);
    assert_eq!(met[..10], expected[..10]);
    assert_eq!(met[10..], [15 * nibbles - nibbles / 2, nibbles / 2]);
}

#[test]
fn the_number_and_the_sum_replaced_by_every_byte() {
    for split in several() {
        let dump = split_dump(7, &split);
        for byte in 0..=255 {
            let mut numbered = dump.clone();
            numbered[4] = byte;
            let expected = match byte {
                0..=49 => report(0, 43, 0, 2),
                50..=127 => report(0, 43, 8, 0),
                0x80..=0xF6 => report(0, 4, 3, 0),
                0xF7 => report(0, 5, 7, 0),
                0xF8..=0xFF => noisy(1, report(0, 43, 7, 0)),
            };
            assert_eq!(walk(&numbered, 0), expected);

            let mut summed = dump.clone();
            summed[41] = byte;
            let expected = match byte {
                _ if byte == dump[41] => report(0, 43, 0, 2),
                0..=127 => report(0, 43, 10, 0),
                0x80..=0xF6 => report(0, 41, 3, 0),
                0xF7 => report(0, 42, 7, 0),
                0xF8..=0xFF => noisy(1, report(0, 43, 7, 0)),
            };
            assert_eq!(walk(&summed, 0), expected);
        }
    }
}

#[test]
fn the_sum_of_the_nibbles_is_refused() {
    for split in several() {
        let mut dump = split_dump(7, &split);
        let nibbles: u32 = dump[5..41].iter().map(|&nibble| u32::from(nibble)).sum();
        let wrong = (nibbles % 128) as u8;
        let refused = wrong != dump[41];
        dump[41] = wrong;
        assert_eq!(walk(&dump, 0).answer, if refused { 10 } else { 0 });
    }
}

// Cut, interrupted, with real time.

#[test]
fn cut_and_interrupted_at_every_place() {
    let dump = split_dump(49, &SPLIT);
    for length in 1..43 {
        let part = &dump[..length];
        assert_eq!(walk(part, 0), report(0, length, 2, 0));
        for status in (0x80..=0xF6).filter(|&status| status != 0xF0) {
            let stream = [part, &[status], &dump].concat();
            let whole = report(length + 1, length + 44, 0, 2);
            assert!(reports(&stream).eq([report(0, length, 3, 0), whole]));
        }
        let stream = [part, &dump].concat();
        let whole = report(length, length + 43, 0, 2);
        assert!(reports(&stream).eq([report(0, length, 3, 0), whole]));
        assert_eq!(record(&stream, length).1, SPLIT);
    }
}

#[test]
fn real_time_at_every_place() {
    let dump = split_dump(49, &SPLIT);
    for at in 1..43 {
        for (length, tick) in [(1, 0xF8), (2, 0xFE), (300, 0xFF)] {
            let noise = vec![tick; length];
            let stream = [&dump[..at], &noise, &dump[at..]].concat();
            let (reading, packed) = record(&stream, 0);
            assert_eq!(
                read_as(&reading),
                noisy(length, report(0, 43 + length, 0, 2))
            );
            assert_eq!(reading.bytes, [49, 0, 0, 0]);
            assert_eq!(packed, SPLIT);
        }
    }
}

#[test]
fn from_the_cable_as_from_a_file() {
    let mut random = Random::new(143);
    for _ in 0..40 {
        let split = inputs::good_split(&mut random);
        let bad = inputs::one_out_of_range_split(&mut random);
        let stream = [
            split_dump(49, &split),
            split_dump(0, &bad),
            with_real_time(&split_dump(7, &split)),
            split_dump(50, &split),
            split_dump(1, &split)[..20].to_vec(),
        ]
        .concat();
        let expected = told_by_the_walk(&stream);
        let answers = expected.iter().map(|told| told.report.answer);
        assert!(answers.eq([0, 11, 0, 8, 2]));
        assert_eq!(expected[2].packed, split);
        for size in 1..=stream.len() {
            assert_eq!(told_by_the_cable(&stream, &[size]), expected);
        }
    }
}

//! How noisy the line was: every report holds the number of bytes F8H..FFH between its start and
//! its end, whatever its answer.

use std::collections::{BTreeMap, BTreeSet};

use reference::streams::damage::{damageable, low_nibble, Damage};
use reference::streams::{inputs, stream, Random, CYCLE};
use reference::{read, reports, walk, write_bank, write_patch, Report};

use crate::kit::{
    bass, dump, edit_message, less_real_time, noisy, outcome, read_as, record, report,
    report_outcome, with_real_time, written, P,
};
use crate::model;
use crate::undamaged::{dumps, Undamaged};

/// All values of real time.
const REAL_TIME: [u8; 8] = [0xF8, 0xF9, 0xFA, 0xFB, 0xFC, 0xFD, 0xFE, 0xFF];

// What is counted.

#[test]
fn every_value_of_real_time_and_no_other_byte() {
    for byte in 0..=255 {
        let noise = usize::from(REAL_TIME.contains(&byte));
        let expected = match byte {
            0x00..=0x7F | 0xF8..=0xFF => report(0, 4, 4, 0),
            0x80..=0xF6 => report(0, 2, 3, 0),
            0xF7 => report(0, 3, 4, 0),
        };
        let input = [0xF0, 0x41, byte, 0xF7];
        assert_eq!(walk(&input, 0), noisy(noise, expected));
    }
}

#[test]
fn in_complete_messages() {
    for byte in REAL_TIME {
        // Right behind F0H, right before F7H, and nothing but real time.
        for (message, noise, answer) in [
            (&[0xF0, byte, 0x41, 0xF7][..], 1, 4),
            (&[0xF0, 0x10, byte, byte, 0xF7], 2, 5),
            (&[0xF0, 0x10, 0x06, 0x05, byte, 0xF7], 1, 6),
            (&[0xF0, byte, byte, byte, 0xF7], 3, 4),
        ] {
            let expected = noisy(noise, report(0, message.len(), answer, 0));
            assert_eq!(walk(message, 0), expected);
        }
    }
    let edit = edit_message([0x15, 0x7F]);
    assert_eq!(walk(&edit, 0), report(0, 7, 0, 6));
    assert_eq!(
        walk(&with_real_time(&edit), 0),
        noisy(6, report(0, 13, 0, 6))
    );
}

#[test]
fn in_interrupted_messages() {
    for byte in REAL_TIME {
        for status in (0x80..=0xF6).filter(|&status| status != 0xF0) {
            // Right behind F0H, and right before the byte that interrupts. What stands behind that
            // one is in no message.
            let input = [0xF0, byte, 0x10, byte, status, byte, byte, 0xF7, byte];
            let found: Vec<_> = reports(&input).collect();
            assert_eq!(found, [noisy(2, report(0, 4, 3, 0))]);
        }
        let twice = [0xF0, byte, 0xF0, byte, byte, 0xF7, byte];
        let found: Vec<_> = reports(&twice).collect();
        let first = noisy(1, report(0, 2, 3, 0));
        let second = noisy(2, report(2, 6, 4, 0));
        assert_eq!(found, [first, second]);
    }
}

#[test]
fn in_cut_messages() {
    for byte in REAL_TIME {
        assert_eq!(walk(&[0xF0, byte], 0), noisy(1, report(0, 2, 2, 0)));
        let input = [0xF0, byte, 0x10, 0x06, byte, byte];
        assert_eq!(walk(&input, 0), noisy(3, report(0, 6, 2, 0)));
    }
    // A cut message counts to the input's end, wherever that is.
    let dump = with_real_time(&dump(0x01, 7, &bass()));
    for length in 1..dump.len() {
        let expected = noisy(length / 2, report(0, length, 2, 0));
        assert_eq!(walk(&dump[..length], 0), expected);
    }
}

#[test]
fn not_outside_messages() {
    for byte in REAL_TIME {
        let ticks = [byte; 40];
        let edit = edit_message([0x15, 0x7F]);
        let input = [&ticks[..], &edit, &ticks, &edit, &[0x90], &ticks].concat();
        let found: Vec<_> = reports(&input).collect();
        assert_eq!(found, [report(40, 47, 0, 6), report(87, 94, 0, 6)]);
        // A walk that starts among them passes over the rest.
        assert_eq!(walk(&input, 20), found[0]);
        assert_eq!(walk(&input, 60), found[1]);
    }
}

#[test]
fn none_with_answer_1() {
    for length in [0, 1, 16, 300] {
        for input in [vec![0xFE; length], vec![0xF7; length], vec![0x10; length]] {
            for place in [0, 1, length, length + 1, usize::MAX] {
                let nothing = report(length, length, 1, 0);
                assert_eq!(walk(&input, place), nothing);
                assert_eq!(read_as(&read(&input, place, &mut [])), nothing);
            }
        }
    }
    let mut noisy_ends = 0;
    for seed in 0..4 * CYCLE {
        let input = stream(seed);
        let last = input.iter().rposition(|&byte| byte == 0xF0);
        let behind = last.map_or(0, |place| place + 1);
        let nothing = report(input.len(), input.len(), 1, 0);
        assert_eq!(walk(&input, behind), nothing, "seed {seed}");
        assert_eq!(read_as(&read(&input, behind, &mut [0; 172])), nothing);
        noisy_ends += usize::from(model::noise(&input[behind..]) > 0);
    }
    assert!(noisy_ends > 100, "{noisy_ends}");
}

#[test]
fn runs_of_any_length_anywhere() {
    let dump = written(|out| write_patch(99, &bass(), out));
    for (length, byte) in (0..700).zip(REAL_TIME.into_iter().cycle()) {
        let run = vec![byte; length];
        for at in [1, 2, 5, 16, 17, 130, 273, 274] {
            let input = [&dump[..at], &run, &dump[at..]].concat();
            let done = noisy(length, report(0, 275 + length, 0, 1));
            assert_eq!(walk(&input, 0), done);
            let cut = noisy(length, report(0, at + length, 2, 0));
            assert_eq!(walk(&input[..at + length], 0), cut);
            let interrupted = [&dump[..at], &run, &[0xF0], &run, &[0xF7]].concat();
            let first = noisy(length, report(0, at + length, 3, 0));
            let second = noisy(length, report(at + length, at + 2 * length + 2, 4, 0));
            assert!(reports(&interrupted).eq([first, second]));
        }
    }
}

#[test]
fn more_than_two_bytes_can_count() {
    let mut input = vec![0xFE; 200_000];
    input[0] = 0xF0;
    assert_eq!(walk(&input, 0), noisy(199_999, report(0, 200_000, 2, 0)));
    input[199_999] = 0xF7;
    assert_eq!(walk(&input, 0), noisy(199_998, report(0, 200_000, 4, 0)));
}

#[test]
fn lengths_around_the_longest() {
    // A message that is too long is counted to its end, and one that isn't is kept whole.
    for length in 330..400 {
        let mut message = vec![0x00; length];
        message[..5].copy_from_slice(&[0xF0, 0x10, 0x06, 0x03, 0x03]);
        message[length - 1] = 0xF7;
        for every in [1, 2, 3, 5, 7, 8, 9, 16, 64, 300] {
            let inside = inputs::with_active_sensing(&message[..length - 1], every);
            let input = [&inside[..], &[0xF7]].concat();
            let (answer, detail) = if length == 351 { (0, 3) } else { (7, 0) };
            let expected = report(0, input.len(), answer, detail);
            let noise = (length - 1) / every;
            assert_eq!(walk(&input, 0), noisy(noise, expected));
        }
    }
}

// Over streams of many seeds; that the number is the plain model's is shown in `walking.rs`.

#[test]
fn complete_messages_are_their_length_and_the_noise() {
    let (mut noisy, mut quiet) = (0, 0);
    for seed in 0..20 * CYCLE {
        let input = stream(seed);
        for report in reports(&input).filter(|report| ![2, 3].contains(&report.answer)) {
            let message = &input[report.start..report.end];
            let dropped = less_real_time(message);
            assert_eq!(message.len(), dropped.len() + report.noise, "seed {seed}");
            assert_eq!(report.noise == 0, message == dropped);
            match report.noise {
                0 => quiet += 1,
                _ => noisy += 1,
            }
        }
    }
    assert!(noisy > 4_000 && quiet > 4_000, "{noisy} {quiet}");
}

#[test]
fn reading_gives_the_same_number_with_every_answer() {
    let mut met = BTreeMap::new();
    for seed in 0..20 * CYCLE {
        let input = stream(seed);
        for report in reports(&input).take(500) {
            for length in [0, 133, 134, 171, 172] {
                let reading = read(&input, report.start, &mut [0; 172][..length]);
                assert_eq!(reading.noise, report.noise, "seed {seed}");
                if reading.noise > 0 {
                    *met.entry(reading.answer).or_insert(0) += 1;
                }
            }
        }
    }
    let answers: BTreeSet<u8> = met.keys().copied().collect();
    assert_eq!(answers, [0].into_iter().chain(2..=13).collect());
    assert!(met.values().all(|&count| count > 100), "{met:?}");
}

#[test]
fn without_real_time_there_is_none() {
    let mut dropped = 0;
    for seed in 0..8 * CYCLE {
        let input = stream(seed);
        let quiet = less_real_time(&input);
        let (before, after) = (reports(&input), reports(&quiet));
        let told: Vec<_> = before.map(|report| report_outcome(&report)).collect();
        let same: Vec<_> = after.map(|report| report_outcome(&report)).collect();
        assert_eq!(told, same, "seed {seed}");
        assert!(reports(&quiet).all(|report| report.noise == 0));
        dropped += input.len() - quiet.len();
    }
    assert!(dropped > 100_000, "{dropped}");
}

/// The place of the byte that a message is ended by, or the input's length.
fn stop(report: &Report) -> usize {
    match report.answer {
        2 | 3 => report.end,
        _ => report.end - 1,
    }
}

/// Whether a byte of real time put at a place stands in the message.
fn is_inside(report: &Report, place: usize) -> bool {
    report.start < place && place <= stop(report)
}

/// The report once it is put there.
fn with_one_more(report: &Report, place: usize) -> Report {
    Report {
        start: report.start + usize::from(place <= report.start),
        end: report.end + usize::from(place <= stop(report)),
        noise: report.noise + usize::from(is_inside(report, place)),
        ..*report
    }
}

/// Some places of a stream: around the edges of its first messages, and anywhere.
fn places(random: &mut Random, input: &[u8], all: &[Report]) -> Vec<usize> {
    let first = all.iter().take(10);
    let edges = first.flat_map(|report| [report.start, stop(report)]);
    let around = edges.flat_map(|place| [place, place + 1]);
    let anywhere = (0..10).map(|_| random.below(input.len() + 1));
    let places = around.chain(anywhere);
    places.filter(|&place| place <= input.len()).collect()
}

#[test]
fn one_byte_more_counts_where_it_stands() {
    let mut random = Random::new(80);
    let mut met = BTreeMap::new();
    for seed in (0..8 * CYCLE).filter(|&seed| stream(seed).len() < 20_000) {
        let input = stream(seed);
        let all: Vec<Report> = reports(&input).collect();
        for place in places(&mut random, &input, &all) {
            let (before, behind) = input.split_at(place);
            let more = [before, &[random.pick(&REAL_TIME)], behind].concat();
            let expected = all.iter().map(|report| with_one_more(report, place));
            assert!(reports(&more).eq(expected), "seed {seed}");
            let around = all.iter().find(|report| is_inside(report, place));
            let answer = around.map(|report| report.answer);
            *met.entry(answer).or_insert(0) += 1;
        }
    }
    // In no message, and in messages of each answer.
    let answers = [0].into_iter().chain(2..=12).map(Some);
    let expected: BTreeSet<_> = answers.chain([None]).collect();
    assert_eq!(met.keys().copied().collect::<BTreeSet<_>>(), expected);
    assert!(met.values().all(|&count| count > 50), "{met:?}");
}

// Active Sensing.

#[test]
fn active_sensing_behind_every_third_byte() {
    let bytes = [1, 2, 3, 4, 5, 6, 7];
    let third = [1, 2, 3, 0xFE, 4, 5, 6, 0xFE, 7];
    assert_eq!(inputs::with_active_sensing(&bytes, 3), third);
    let each = [1, 0xFE, 2, 0xFE, 3, 0xFE];
    assert_eq!(inputs::with_active_sensing(&bytes[..3], 1), each);
    let last = [1, 2, 3, 4, 5, 6, 7, 0xFE];
    assert_eq!(inputs::with_active_sensing(&bytes, 7), last);
    assert_eq!(inputs::with_active_sensing(&bytes, 8), bytes);
    assert_eq!(inputs::with_active_sensing(&[], 1), []);
}

#[test]
fn active_sensing_into_every_dump_of_a_bank() {
    let mut random = Random::new(81);
    let patches: Vec<[u8; 134]> = (0..20).map(|_| inputs::good_patch(&mut random)).collect();
    let mut bank = vec![0; 20 * 275];
    let done = write_bank(patches.as_flattened(), &mut bank);
    assert_eq!((done.answer, done.detail), (0, 5_500));
    for every in (1..=40).chain([64, 100, 274, 275, 276, 1_000, 6_000]) {
        let line = inputs::with_active_sensing(&bank, every);
        let found: Vec<_> = reports(&line).collect();
        assert_eq!(found.len(), 20);
        for (number, (found, patch)) in found.iter().zip(&patches).enumerate() {
            let (first, last) = (275 * number, 275 * (number + 1) - 1);
            // What stands behind a dump's F7H is in none.
            let noise = last / every - first / every;
            let start = first + first / every;
            let expected = noisy(noise, report(start, start + 275 + noise, 0, 1));
            assert_eq!(*found, expected, "{every}");
            let (reading, packed) = record(&line, start);
            assert_eq!(read_as(&reading), expected);
            assert_eq!(packed, patch);
        }
    }
}

// Demand 3.

/// What stands before a dump and behind it: messages with real time inside, complete, interrupted
/// and cut, and real time in none.
fn noisy_surroundings() -> [(Vec<u8>, Vec<u8>); 3] {
    let dump = with_real_time(&dump(0x01, 98, &bass()));
    let edit = with_real_time(&edit_message([0x15, 0x7F]));
    [
        (
            [&[0xFE, 0xF8], &dump[..], &[0xFE]].concat(),
            [&[0xFE], &edit[..], &[0xF0, 0xFE, 0x10, 0xFF]].concat(),
        ),
        // The dump itself interrupts the message before it.
        (
            vec![0xF0, 0xFE, 0x10, 0x06, 0xFB, 0x01, 0xFE],
            [&[0xFA, 0xF7, 0xF0, 0xFE, 0x90, 0xFE], &dump[..]].concat(),
        ),
        (
            [&[0xF0, 0xFE, 0xFE, 0xF7], &edit[..], &[0xFE; 40]].concat(),
            vec![0xF0, 0xFE],
        ),
    ]
}

/// The numbers of the reports before a dump, of its own and of those behind it.
fn numbers(undamaged: &Undamaged) -> [Vec<usize>; 3] {
    let mut numbers = [vec![], vec![], vec![]];
    for report in reports(&undamaged.stream) {
        let part = match report.start {
            start if start < undamaged.start => 0,
            start if start < undamaged.end => 1,
            _ => 2,
        };
        numbers[part].push(report.noise);
    }
    numbers
}

#[test]
fn the_others_keep_their_numbers() {
    let expected = [
        [vec![274], vec![0], vec![6, 2]],
        [vec![3], vec![0], vec![1, 274]],
        [vec![2, 6], vec![0], vec![1]],
    ];
    let [numbered, buffer] = dumps(41, &bass());
    let by_turns = [&numbered, &buffer, &numbered];
    let mut count = 0;
    for (((before, after), dump), expected) in
        noisy_surroundings().iter().zip(by_turns).zip(expected)
    {
        let undamaged = Undamaged::new(before, dump, after);
        assert_eq!(numbers(&undamaged), expected);
        let places = damageable(undamaged.start);
        let one = Damage::every(&undamaged.stream, places.clone());
        let exchanged = Damage::every_exchange(&undamaged.stream, places);
        let at = low_nibble(undamaged.start, 133);
        let pair = Damage::every_pair(&undamaged.stream, at);
        for damage in one.chain(exchanged).chain(pair) {
            undamaged.survives(damage);
            count += 1;
        }
    }
    assert!(count > 3 * (269 * 504 + 16_383), "{count}");
}

#[test]
fn a_damaged_dump_has_a_number_of_its_own() {
    let [dump, _] = dumps(41, &P);
    let undamaged = Undamaged::new(&[0xFE], &dump, &[0xFE]);
    for at in damageable(undamaged.start) {
        for byte in REAL_TIME {
            // It is dropped, and the message one byte too short.
            let expected = noisy(1, report(1, 276, 7, 0));
            assert_eq!(undamaged.survives(Damage::Replace { at, byte }), [expected]);
        }
    }
    let at = undamaged.data().start;
    let bytes = [0xF8, 0xFF];
    let both = undamaged.survives(Damage::ReplaceTwo { at, bytes });
    assert_eq!(both, [noisy(2, report(1, 276, 7, 0))]);
    // Cut in two by a start, it counts in each part what stands there.
    let bytes = [0xF0, 0xFE];
    let parts = undamaged.survives(Damage::ReplaceTwo { at, bytes });
    assert_eq!(
        parts,
        [report(1, at, 3, 0), noisy(1, report(at, 276, 4, 0))]
    );
    let bytes = [0xFE, 0xF0];
    let parts = undamaged.survives(Damage::ReplaceTwo { at, bytes });
    assert_eq!(
        parts,
        [noisy(1, report(1, at + 1, 3, 0)), report(at + 1, 276, 4, 0)]
    );
}

#[test]
fn noise_is_no_refusal() {
    // The same dump, quiet and noisy, with every buffer.
    let quiet = dump(0x0D, 0, &bass());
    let loud = with_real_time(&quiet);
    for length in [0, 133, 134, 172] {
        let (mut one, mut other) = ([0xA5; 172], [0xA5; 172]);
        let first = read(&quiet, 0, &mut one[..length]);
        let second = read(&loud, 0, &mut other[..length]);
        let expected = match length {
            0 | 133 => outcome(13, 0),
            _ => outcome(0, 0x0D),
        };
        assert_eq!(report_outcome(&read_as(&first)), expected);
        assert_eq!(report_outcome(&read_as(&second)), expected);
        assert_eq!((first.noise, second.noise), (0, 274));
        assert_eq!(one, other);
    }
}

//! The walk and reading a record, over the streams of many seeds.

use reference::streams::{inputs, stream, Random, CYCLE};
use reference::{read, reports, walk, Reading, Report};

use crate::kit::{noisy, outcome, read_as, reading_outcome, record, report};
use crate::model;

/// Seeds enough to meet each kind of stream many times.
const SEEDS: u64 = 40 * CYCLE;

#[test]
fn reports_are_those_of_the_plain_model() {
    for seed in 0..SEEDS {
        let input = stream(seed);
        let found: Vec<_> = reports(&input)
            .map(|report| {
                let judged = (report.answer, report.detail, report.value);
                (report.start, report.end, judged, report.noise)
            })
            .collect();
        assert_eq!(found, model::reports(&input), "seed {seed}");
    }
}

#[test]
fn the_walk_finds_the_next_report_from_any_place() {
    let mut random = Random::new(1);
    for seed in 0..4 * CYCLE {
        let input = stream(seed);
        let all: Vec<Report> = reports(&input).collect();
        for _ in 0..20 {
            let place = inputs::place(&mut random, &input);
            let nothing = report(input.len(), input.len(), 1, 0);
            let next = all.iter().find(|report| report.start >= place);
            assert_eq!(
                walk(&input, place),
                *next.unwrap_or(&nothing),
                "seed {seed}"
            );
        }
    }
}

#[test]
fn reading_answers_as_the_walk_does_then_13() {
    let mut random = Random::new(2);
    for seed in 0..8 * CYCLE {
        let input = stream(seed);
        for found in reports(&input).take(200) {
            let (reading, packed) = record(&input, found.start);
            assert_eq!(read_as(&reading), found, "seed {seed}");
            if reading.answer != 0 {
                assert_eq!(reading.bytes, [0; 4]);
            }

            let lent = inputs::output(&mut random, packed.len());
            let mut buffer = lent.clone();
            let again = read(&input, found.start, &mut buffer);
            if lent.len() < packed.len() {
                assert_eq!(
                    again,
                    Reading {
                        answer: 13,
                        detail: 0,
                        value: 0,
                        bytes: [0; 4],
                        ..reading
                    }
                );
                assert_eq!(buffer, lent);
            } else {
                assert_eq!(again, reading);
                assert_eq!(buffer[..packed.len()], packed);
                assert_eq!(buffer[packed.len()..], lent[packed.len()..]);
            }
        }
    }
}

#[test]
fn bytes_that_come_with_the_answer() {
    let mut message = vec![0xF0, 0x10, 0x06, 0x03, 0x03];
    message.extend([0; 345]);
    message.push(0xF7);
    let (reading, packed) = record(&message, 0);
    assert_eq!(reading_outcome(&reading), outcome(0, 3));
    assert_eq!(reading.bytes, [0; 4]);
    assert_eq!(packed, [0; 172]);

    // An edit's bytes come as received, not as stored; it needs no buffer.
    let edit = [0xF0, 0x10, 0x06, 0x06, 0x0C, 0x60, 0xF7];
    assert_eq!(read(&edit, 0, &mut []).bytes, [0x0C, 0x60, 0, 0]);
    let bus_edit = [0xF0, 0x10, 0x06, 0x0B, 2, 3, 0x7F, 4, 0xF7];
    assert_eq!(read(&bus_edit, 0, &mut []).bytes, [2, 3, 0x7F, 4]);
    // And so do an operation's.
    let store = [0xF0, 0x10, 0x06, 0x0E, 99, 9, 0x7F, 0xF7];
    assert_eq!(read(&store, 0, &mut []).bytes, [99, 9, 0x7F, 0]);
}

#[test]
fn extents() {
    // Complete, with real time and data outside.
    assert_eq!(
        walk(&[0xFE, 0x40, 0xF0, 0xFE, 0xF7, 0xF7], 0),
        noisy(1, report(2, 5, 4, 0))
    );
    // Interrupted by each status byte, which is not consumed.
    for status in (0x80..=0xF6).filter(|&status| status != 0xF0) {
        let input = [0xF0, 0x10, status, 0xF7];
        assert_eq!(reports(&input).collect::<Vec<_>>(), [report(0, 2, 3, 0)]);
    }
    let twice = [0xF0, 0x10, 0xF0, 0xF7];
    let found: Vec<_> = reports(&twice).collect();
    assert_eq!(found, [report(0, 2, 3, 0), report(2, 4, 4, 0)]);
    // Cut, whatever stands in it.
    assert_eq!(walk(&[0xF0], 0), report(0, 1, 2, 0));
    let ticking = noisy(1, report(0, 3, 2, 0));
    assert_eq!(walk(&[0xF0, 0x41, 0xFE], 0), ticking);
    // From inside a message the next one is found.
    assert_eq!(walk(&twice, 1), report(2, 4, 4, 0));
    assert_eq!(walk(&twice, 3), report(4, 4, 1, 0));
    assert_eq!(walk(&[], 0), report(0, 0, 1, 0));
    assert_eq!(walk(&[], usize::MAX), report(0, 0, 1, 0));
}

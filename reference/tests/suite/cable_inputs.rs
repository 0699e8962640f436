//! The cuts and streams that are made for the cable reader are what their names say.

use std::collections::BTreeSet;

use reference::streams::cuts::{
    cable_stream, cable_stream_name, cable_stream_of, cuts, cuts_name, cuts_of, next_feed, KINDS,
    STREAMS,
};
use reference::streams::Random;
use reference::{is_real_time, reports, Report};

use crate::kit::less_real_time;

/// Lengths of streams to be cut.
const LENGTHS: [usize; 13] = [0, 1, 2, 3, 15, 16, 17, 43, 275, 351, 1_000, 4_097, 20_000];

#[test]
fn a_seed_always_makes_the_same_cuts_and_stream() {
    let made = |seed| {
        let mut random = Random::new(seed);
        let stream = cable_stream(&mut random);
        let cuts = cuts(&mut random, stream.len());
        (stream, cuts)
    };
    for seed in 0..200 {
        assert_eq!(made(seed), made(seed));
    }
    assert_ne!(made(1), made(2));
}

#[test]
fn names_of_kinds_differ() {
    let cuts: BTreeSet<_> = (0..KINDS).map(cuts_name).collect();
    let streams: BTreeSet<_> = (0..STREAMS).map(cable_stream_name).collect();
    assert_eq!((cuts.len(), streams.len()), (KINDS, STREAMS));
}

#[test]
fn cuts_make_up_the_whole_stream() {
    let mut random = Random::new(130);
    for kind in 0..KINDS {
        for length in LENGTHS {
            let cuts = cuts_of(&mut random, kind, length);
            assert!(!cuts.is_empty());
            assert!(cuts.iter().sum::<usize>() >= length, "{}", cuts_name(kind));
        }
    }
}

#[test]
fn kinds_of_cuts() {
    let mut random = Random::new(131);
    for kind in 0..KINDS {
        let name = cuts_name(kind);
        for _ in 0..50 {
            let length = random.within(400..=5_000);
            let cuts = cuts_of(&mut random, kind, length);
            let empty = cuts.iter().filter(|&&cut| cut == 0).count();
            let fits = match name {
                "many empty feeds" => 2 * empty > cuts.len(),
                "bytes and empty feeds" => {
                    let behind = cuts.windows(2).filter(|pair| pair == &[1, 0]);
                    behind.count() == length && empty + length == cuts.len()
                }
                "empty feeds at the ends" => matches!(cuts[..], [0, .., 0]),
                "a byte at a time" => cuts == vec![1; length],
                "one byte alone" => matches!(cuts[..], [_, 1, _]),
                "one cut" => matches!(cuts[..], [one, other] if one + other == length),
                "more each time" => cuts.iter().copied().eq(1..=cuts.len()),
                "near a message's length" => empty == 0 && cuts.iter().all(|&cut| cut <= 353),
                "small" => cuts.iter().all(|cut| (1..=8).contains(cut)),
                "small and large" => empty < cuts.len(),
                "large" => empty == 0,
                "16" | "256" | "4096" => {
                    let size = name.parse().unwrap();
                    cuts.iter().all(|&cut| cut == size)
                }
                "all at once" => cuts == [length],
                _ => false,
            };
            assert!(fits, "{name}: {cuts:?}");
        }
    }
}

#[test]
fn feeds_go_on_until_all_is_taken_and_every_cut_has_come() {
    assert_eq!(next_feed(&[3, 0, 5], 0, 9), Some(3));
    assert_eq!(next_feed(&[3, 0, 5], 1, 6), Some(0));
    assert_eq!(next_feed(&[3, 0, 5], 2, 4), Some(4));
    assert_eq!(next_feed(&[3, 0, 5], 2, 0), Some(0));
    assert_eq!(next_feed(&[3, 0, 5], 3, 0), None);
    assert_eq!(next_feed(&[3, 0, 5], 3, 1), Some(1));
    assert_eq!(next_feed(&[0], 0, 0), Some(0));
}

/// The bytes behind F0H that a message has, real time dropped, and all that it has.
fn lengths(stream: &[u8], report: &Report) -> (usize, usize) {
    let message = &stream[report.start..report.end];
    let data = less_real_time(message).len() - 1;
    let ends = usize::from(message.last() == Some(&0xF7));
    (data - ends, message.len())
}

#[test]
fn kinds_of_streams() {
    let mut random = Random::new(132);
    for kind in 0..STREAMS {
        let name = cable_stream_name(kind);
        let mut answers = BTreeSet::new();
        for _ in 0..1_000 {
            let stream = cable_stream_of(&mut random, kind);
            let found: Vec<Report> = reports(&stream).collect();
            answers.extend(found.iter().map(|report| report.answer));
            let (first, last) = (found.first(), found.last());
            let fits = match name {
                "real time alone" => stream.iter().all(|&byte| is_real_time(byte)),
                "starts only" => stream.iter().all(|&byte| byte == 0xF0),
                "never ending" => last.is_some_and(|last| last.answer == 2),
                "data behind one start" => found.len() == 1 && stream.len() >= 900,
                "near the room's length" => found.iter().all(|report| {
                    // One that is interrupted by F0H leaves another.
                    let (data, _) = lengths(&stream, report);
                    data == 0 || (346..=375).contains(&data)
                }),
                "noisy dumps" => found.iter().all(|report| report.noise > 0),
                "a dump in a dump" => last.is_some_and(|last| last.answer == 0),
                "operations" | "noisy operations" => first.is_some(),
                "edits" => first.is_some() && stream.len() <= 270,
                "masters" => found.iter().all(|report| report.detail == 3),
                "dumps" => found
                    .iter()
                    .all(|report| [1, 2, 3, 13].contains(&report.detail)),
                "splits" => {
                    // The longest of a wrong length have 118 bytes behind the opcode.
                    let split = |report: &Report| stream[report.start + 3] == 0x02;
                    found.iter().all(split) && stream.len() <= 20 * 123
                }
                "many starts" | "of a seed" => true,
                _ => false,
            };
            assert!(fits, "{name}");
        }
        let expected: &[u8] = match name {
            "real time alone" => &[],
            "starts only" => &[2, 3],
            "never ending" => &[0, 2],
            "data behind one start" => &[2, 4, 7],
            "near the room's length" => &[0, 2, 3, 4, 5, 6, 7, 8, 9, 10],
            "a dump in a dump" => &[0, 3],
            "many starts" => &[2, 3, 4],
            "operations" => &[0, 7, 8],
            "noisy operations" => &[0, 2, 3, 7, 8],
            "edits" => &[0, 8, 11, 12],
            "splits" => &[0, 7, 11],
            "noisy dumps" | "masters" | "dumps" => &[0],
            _ => &[0, 2, 3, 4, 5, 6, 7, 8, 9, 10, 11, 12],
        };
        let missing = |answer: &&u8| !answers.contains(*answer);
        assert_eq!(expected.iter().find(missing), None, "{name}");
    }
}

/// Whole messages with each number of bytes behind F0H around the room's, of our device and others,
/// and accepted ones that real time makes longer than the room.
#[test]
fn streams_reach_both_sides_of_the_room() {
    let mut random = Random::new(133);
    let mut found = BTreeSet::new();
    let mut longer = BTreeSet::new();
    for _ in 0..20_000 {
        let stream = cable_stream(&mut random);
        for report in reports(&stream).filter(|report| report.answer != 3) {
            let (data, raw) = lengths(&stream, &report);
            found.insert((data, report.answer));
            if report.answer == 0 && raw > 351 {
                longer.insert(report.detail);
            }
        }
    }
    for data in 346..=354 {
        for answer in [2, 4, 5, 7] {
            assert!(found.contains(&(data, answer)), "{data} {answer}");
        }
    }
    assert!(found.contains(&(349, 0)) && found.contains(&(349, 10)));
    let opcodes = [1, 2, 3, 4, 6, 7, 10, 11, 12, 13, 14];
    assert_eq!(longer, opcodes.into_iter().collect());
}

//! The cable reader over many streams, cut in every way: held against its model, and against the
//! file walk.

use std::collections::{BTreeMap, BTreeSet};

use reference::streams::cuts::{cable_stream, cuts, cuts_name, cuts_of, next_feed, KINDS};
use reference::streams::damage::{damageable, Damage};
use reference::streams::{inputs, stream, Random, CYCLE};
use reference::Report;

use crate::cable_model::{told_by_the_cable, told_by_the_walk, took, Both, Told};
use crate::kit::{bass, dump, edit_message, with_real_time};
use crate::undamaged::{dumps, surroundings};

/// Feeds what has arrived until all is taken, with empty feeds behind it.
fn feed_all(both: &mut Both, mut arrived: &[u8]) -> usize {
    let mut ended = 0;
    while !arrived.is_empty() {
        let fed = both.feed(arrived);
        arrived = &arrived[fed.taken..];
        ended += usize::from(fed.ended);
    }
    assert_eq!(both.feed(&[]), took(0));
    ended
}

/// Streams of a few hundred bytes with messages of many kinds and endings.
fn short_streams() -> Vec<Vec<u8>> {
    let dump = dump(0x01, 41, &bass());
    let edit = edit_message([0x15, 0x7F]);
    let noisy = with_real_time(&edit);
    let mut streams = vec![
        [&edit[..], &noisy, &edit].concat(),
        [&dump[..], &dump].concat(),
        [&dump[..100], &dump, &edit[..3]].concat(),
        [
            &[0xF7, 0x90, 0x40],
            &noisy[..],
            &[0xFE, 0xF0, 0xF0, 0xF7, 0xF6],
        ]
        .concat(),
        with_real_time(&dump),
        vec![0xF0; 20],
        vec![0xFE; 20],
        [&[0xF0], &[0x10; 360][..], &[0xF7]].concat(),
    ];
    let seeds = (0..2 * CYCLE).map(stream);
    streams.extend(
        seeds
            .filter(|stream| (1..400).contains(&stream.len()))
            .take(60),
    );
    streams
}

#[test]
fn cut_at_every_place() {
    let mut ended = 0;
    for stream in short_streams() {
        for at in 0..=stream.len() {
            let (first, second) = stream.split_at(at);
            let mut both = Both::new();
            ended += feed_all(&mut both, first);
            ended += feed_all(&mut both, second);
            ended += usize::from(both.end().ended);
        }
    }
    assert!(ended > 10_000, "{ended}");
}

#[test]
fn a_byte_at_a_time() {
    let mut ended = 0;
    for stream in short_streams() {
        let mut both = Both::new();
        for byte in &stream {
            ended += feed_all(&mut both, &[*byte]);
        }
        ended += usize::from(both.end().ended);
        assert_eq!(both.reader.taken(), stream.len());
    }
    assert!(ended > 150, "{ended}");
}

/// The model's answers to streams of all kinds, cut in all ways.
#[test]
fn the_model_agrees_whatever_the_cuts() {
    let mut random = Random::new(120);
    let mut answers = BTreeSet::new();
    for _ in 0..1_000 {
        let stream = cable_stream(&mut random);
        if stream.len() > 1_500 {
            continue;
        }
        let cuts = cuts(&mut random, stream.len());
        let mut both = Both::new();
        let (mut place, mut turn) = (0, 0);
        while let Some(fed) = next_feed(&cuts, turn, stream.len() - place) {
            let call = both.feed(&stream[place..place + fed]);
            answers.insert((call.ended, call.report.answer));
            place += call.taken;
            turn += 1;
        }
        let end = both.end();
        answers.insert((end.ended, end.report.answer));
    }
    let met = [(false, 0), (false, 1), (true, 0)];
    let met = met.into_iter().chain((2..=12).map(|answer| (true, answer)));
    assert_eq!(answers, met.collect());
}

/// The same reports and records for every way of cutting; 13 is none of them.
#[test]
fn the_file_walk_tells_the_same() {
    let mut random = Random::new(121);
    let mut answers = BTreeMap::new();
    for _ in 0..400 {
        let stream = cable_stream(&mut random);
        let expected = told_by_the_walk(&stream);
        for kind in 0..KINDS {
            let cuts = cuts_of(&mut random, kind, stream.len());
            let told = told_by_the_cable(&stream, &cuts);
            assert_eq!(told, expected, "{}", cuts_name(kind));
        }
        for told in &expected {
            *answers.entry(told.report.answer).or_insert(0) += 1;
        }
    }
    let met: Vec<u8> = answers.keys().copied().collect();
    assert_eq!(met, [0, 2, 3, 4, 5, 6, 7, 8, 9, 10, 11, 12]);
    assert!(answers.values().all(|&count| count > 10), "{answers:?}");
}

#[test]
fn the_file_walk_tells_the_same_of_every_kind_of_seed() {
    let mut random = Random::new(122);
    let mut reports = 0;
    for seed in 0..8 * CYCLE {
        let stream = stream(seed);
        let cuts = cuts(&mut random, stream.len());
        let expected = told_by_the_walk(&stream);
        assert_eq!(told_by_the_cable(&stream, &cuts), expected, "seed {seed}");
        reports += expected.len();
    }
    assert!(reports > 10_000, "{reports}");
}

/// The same report and record, with places counted from a stream's end.
fn from_the_end(told: &Told, length: usize) -> Told {
    let report = Report {
        start: length - told.report.start,
        end: length - told.report.end,
        ..told.report
    };
    Told {
        report,
        ..told.clone()
    }
}

/// Demand 3 for one damage, both streams read from the cable.
fn survives(random: &mut Random, [before, dump, after]: [&[u8]; 3], damage: Damage) {
    let stream = [before, dump, after].concat();
    let mut damaged = stream.clone();
    damage.apply(&mut damaged);
    let (start, end) = (before.len(), stream.len() - after.len());
    let damaged_end = damaged.len() - after.len();

    let undamaged = told_by_the_cable(&stream, &cuts(random, stream.len()));
    let found = told_by_the_cable(&damaged, &cuts(random, damaged.len()));
    let until = |told: &[Told], place: usize| {
        let at = told.partition_point(|told| told.report.start < place);
        (told[..at].to_vec(), told[at..].to_vec())
    };
    let behind = |told: &[Told], length: usize| -> Vec<Told> {
        told.iter().map(|told| from_the_end(told, length)).collect()
    };

    let (first, rest) = until(&undamaged, start);
    let (own, last) = until(&rest, end);
    assert_eq!(own.len(), 1);
    assert_eq!((own[0].report.answer, own[0].packed.len()), (0, 134));
    let (found_first, rest) = until(&found, start);
    let (refusals, found_last) = until(&rest, damaged_end);
    assert_eq!(found_first, first, "{damage:?}");
    assert!(!refusals.is_empty());
    assert!(
        refusals.iter().all(|told| told.report.answer != 0),
        "{damage:?}"
    );
    assert_eq!(
        behind(&found_last, damaged.len()),
        behind(&last, stream.len()),
        "{damage:?}"
    );
}

#[test]
fn demand_3_over_the_cable() {
    let mut random = Random::new(123);
    let mut count = 0;
    for (before, after) in surroundings() {
        for _ in 0..5 {
            let patch = inputs::good_patch(&mut random);
            for dump in dumps(random.byte_within(0..=99), &patch) {
                let stream = [&before[..], &dump, &after].concat();
                let places = damageable(before.len());
                for _ in 0..20 {
                    let damage = Damage::any(&mut random, &stream, places.clone());
                    survives(&mut random, [&before, &dump, &after], damage);
                    count += 1;
                }
            }
        }
    }
    assert_eq!(count, 4 * 5 * 2 * 20);
}

#[test]
fn demand_3_over_the_cable_in_streams_of_many_seeds() {
    let mut random = Random::new(124);
    let mut count = 0;
    for seed in 0..CYCLE {
        let (before, after) = (stream(2 * seed), stream(2 * seed + 1));
        if before.len() + after.len() > 10_000 {
            continue;
        }
        let patch = inputs::good_patch(&mut random);
        for dump in dumps(random.byte_within(0..=99), &patch) {
            let stream = [&before[..], &dump, &after].concat();
            let damage = Damage::any(&mut random, &stream, damageable(before.len()));
            survives(&mut random, [&before, &dump, &after], damage);
            count += 1;
        }
    }
    assert!(count > 200, "{count}");
}

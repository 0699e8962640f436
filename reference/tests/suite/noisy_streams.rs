//! The real time in the streams that seeds make, and in inputs for single routines.

use std::collections::{BTreeMap, BTreeSet};

use reference::streams::{inputs, stream, Random, CYCLE};
use reference::{is_real_time, reports, Report};

use crate::kit::less_real_time;

/// Seeds enough to meet every sort of noise.
const SEEDS: u64 = 200 * CYCLE;

/// How a message ends.
#[derive(Clone, Copy, Debug, PartialEq, Eq, PartialOrd, Ord)]
enum Ending {
    Complete,
    Interrupted,
    Cut,
}

const ENDINGS: [Ending; 3] = [Ending::Complete, Ending::Interrupted, Ending::Cut];

/// How a message ends, and the bytes before that.
fn inside<'a>(input: &'a [u8], report: &Report) -> (Ending, &'a [u8]) {
    let message = &input[report.start + 1..report.end];
    match (report.answer, message) {
        (2, _) => (Ending::Cut, message),
        (3, _) => (Ending::Interrupted, message),
        (_, [content @ .., 0xF7]) => (Ending::Complete, content),
        _ => panic!("{report:?}"),
    }
}

/// What real time inside a message is like.
#[derive(Clone, Copy, Debug, PartialEq, Eq, PartialOrd, Ord)]
enum Sort {
    /// Of this value.
    Value(u8),
    /// Right behind the F0H.
    First,
    /// Right before the byte that ends the message, or before the input's end.
    Last,
    /// Without any data.
    Only,
    /// More than this many together.
    Longer(usize),
    /// Behind every so many bytes, all over the message.
    Every(usize),
}

/// What there is of these in the bytes inside a message with real time.
fn sorts(inside: &[u8]) -> BTreeSet<Sort> {
    let real_time = |byte: &u8| is_real_time(*byte);
    let runs = inside.chunk_by(|one, other| real_time(one) && real_time(other));
    let longest = runs.map(<[u8]>::len).max().unwrap_or(0);
    let (values, data): (Vec<u8>, Vec<u8>) = inside.iter().partition(|byte| real_time(byte));

    let first = inside.first().is_some_and(real_time).then_some(Sort::First);
    let last = inside.last().is_some_and(real_time).then_some(Sort::Last);
    let only = data.is_empty().then_some(Sort::Only);
    let every = distance(inside).map(Sort::Every);
    let longer = [16, 32, 64, 300].map(|length| (longest > length).then_some(Sort::Longer(length)));
    let found = [first, last, only, every].into_iter().chain(longer);
    let values = values.into_iter().map(Sort::Value);
    found.flatten().chain(values).collect()
}

/// How many bytes stand between two of real time, if as many do everywhere, and fewer before the
/// first and behind the last.
fn distance(inside: &[u8]) -> Option<usize> {
    let parts = inside.split(|&byte| is_real_time(byte)).map(<[u8]>::len);
    let parts: Vec<usize> = parts.collect();
    let &[first, every, .., last] = &parts[..] else {
        return None;
    };
    let evenly = parts[1..parts.len() - 1].iter().all(|&part| part == every);
    (evenly && first < every && last < every).then_some(every)
}

/// All values, and the lengths of runs.
fn values_and_runs() -> impl Iterator<Item = Sort> {
    let lengths = [16, 32, 64, 300].map(Sort::Longer);
    (0xF8..=0xFF).map(Sort::Value).chain(lengths)
}

#[test]
fn of_every_sort_in_messages_of_every_ending() {
    let mut found = BTreeSet::new();
    let mut messages = BTreeMap::new();
    for seed in 0..SEEDS {
        let input = stream(seed);
        for report in reports(&input).filter(|report| report.noise > 0) {
            let (ending, inside) = inside(&input, &report);
            found.extend(sorts(inside).into_iter().map(|sort| (ending, sort)));
            *messages.entry(ending).or_insert(0) += 1;
        }
    }
    let distances = [1, 2, 3, 16, 17, 31].map(Sort::Every);
    for ending in ENDINGS {
        let edges = [Sort::First, Sort::Last, Sort::Only];
        for sort in values_and_runs().chain(edges).chain(distances) {
            assert!(found.contains(&(ending, sort)), "{ending:?} {sort:?}");
        }
        assert!(messages[&ending] > 2_000, "{messages:?}");
    }
}

#[test]
fn dense_and_sparse_in_messages_of_every_kind() {
    let mut found = BTreeSet::new();
    for seed in 0..SEEDS {
        let input = stream(seed);
        for report in reports(&input).filter(|report| report.noise > 0) {
            let (_, inside) = inside(&input, &report);
            let every = distance(inside);
            found.extend(every.map(|every| (report.answer, report.detail, every)));
        }
    }
    // Accepted ones with their opcode; the others with any detail.
    let accepted = |opcode: usize, every| found.contains(&(0, opcode, every));
    let refused = |answer: u8, every: usize| {
        let mut like = found.iter().map(|&(answer, _, every)| (answer, every));
        like.any(|told| told == (answer, every))
    };
    for every in [1, 2, 3, 16, 17, 31] {
        for opcode in (0x01..=0x0E).filter(|opcode| ![0x05, 0x08, 0x09].contains(opcode)) {
            // An edit and an operation are too short for sparse ones.
            let long = [0x01, 0x02, 0x03, 0x0D].contains(&opcode);
            let short = !long && every > 3;
            assert_eq!(accepted(opcode, every), !short, "{opcode} {every}");
        }
        for answer in 2..=12 {
            assert!(refused(answer, every), "{answer} {every}");
        }
    }
}

#[test]
fn between_messages() {
    let mut values = BTreeSet::new();
    let (mut behind_end, mut behind_status, mut before_start) = (0, 0, 0);
    for seed in 0..SEEDS {
        let input = stream(seed);
        let found: Vec<Report> = reports(&input).collect();
        for pair in found.windows(2) {
            let gap = &input[pair[0].end..pair[1].start];
            values.extend(gap.iter().filter(|&&byte| is_real_time(byte)));
            match (pair[0].answer, gap) {
                (3, [_, 0xF8..=0xFF, ..]) => behind_status += 1,
                (4.. | 0, [0xF8..=0xFF, ..]) => behind_end += 1,
                _ => {}
            }
            before_start += usize::from(matches!(gap, [.., 0xF8..=0xFF]));
        }
    }
    assert_eq!(values, (0xF8..=0xFF).collect());
    let counts = [behind_end, behind_status, before_start];
    assert!(counts.iter().all(|&count| count > 1_000), "{counts:?}");
}

#[test]
fn in_inputs() {
    let mut random = Random::new(46);
    let mut found = BTreeSet::new();
    for _ in 0..20_000 {
        let length = random.pick(&[0, 5, 273]);
        let inside = vec![0x05; length];
        let noisy = inputs::with_real_time(&mut random, &inside);
        assert!(noisy.len() > length);
        assert_eq!(less_real_time(&noisy), inside);
        found.extend(sorts(&noisy).into_iter().map(|sort| (length, sort)));
    }
    for length in [0, 5, 273] {
        for sort in values_and_runs().chain([Sort::First, Sort::Last]) {
            assert!(found.contains(&(length, sort)), "{length} {sort:?}");
        }
        assert_eq!(found.contains(&(length, Sort::Only)), length == 0);
    }
    for every in [1, 2, 3, 8, 15, 16, 17, 31, 32, 33, 64, 128] {
        assert!(found.contains(&(273, Sort::Every(every))), "{every}");
    }
}

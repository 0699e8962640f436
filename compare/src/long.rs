//! Long inputs: the reports agree with the second program's, and time per byte does not grow.
//!
//! Growth is measured with the same memory traffic on both sides: the long input in one go, against
//! as many bytes taken as inputs of 64 KiB, one after the other. Rounds take turns, and the least of
//! each counts, in time on the processor, since whatever else runs on the machine can only add to it.
//! How fast one input of 64 KiB is that stays in the cache is printed beside them.
//!
//! Some inputs come straight from the cable too, in pieces of 4,096 bytes, and the first eighth of them
//! in pieces of one. Behind each call both programs have told the same and left the same record.

use std::fs;
use std::hint::black_box;
use std::time::Duration;

use compare::ffi::{self, Flat, A_CALL};
use compare::{clock, flat, word};
use reference::answers::NO_MESSAGE;
use reference::streams::{inputs, Random};
use reference::BANK_PATCHES;

use crate::cable::Both;

/// The size of the short inputs.
const SHORT: usize = 1 << 16;
/// By how much time per byte may grow.
const MOST_GROWTH: f64 = 1.3;
/// How often growth is measured at most: on a busy machine one measure can miss, growth misses all.
const MEASURES: usize = 3;
/// What the random inputs depend on.
const SEED: u64 = 1000;
/// The size of the pieces that come from the cable.
const PIECE: usize = 1 << 12;
/// Which part of an input comes from the cable in pieces of one byte.
const ONE_BY_ONE: usize = 8;

/// A kind of long input.
struct Kind {
    name: &'static str,
    make: fn(usize) -> Vec<u8>,
    /// What is done to each input of 64 KiB cut from the long one.
    shorten: fn(&mut [u8]),
    /// Which part of it is timed from the cable, if it comes from there: the whole, or less of an input
    /// with many messages.
    cable: Option<usize>,
}

static KINDS: [Kind; 9] = [
    Kind {
        name: "F0H only",
        make: |size| vec![0xF0; size],
        shorten: |_| {},
        cable: Some(8),
    },
    Kind {
        name: "00H only",
        // Written, since memory that comes zeroed from the system is one page again and again.
        make: |size| [0x00].repeat(size),
        shorten: |_| {},
        cable: None,
    },
    Kind {
        name: "F0H, then 7FH",
        make: |size| behind_one_start(0x7F, size),
        shorten: |input| input[0] = 0xF0,
        cable: Some(1),
    },
    Kind {
        name: "F0H, then FEH",
        make: |size| behind_one_start(0xFE, size),
        shorten: |input| input[0] = 0xF0,
        cable: Some(1),
    },
    Kind {
        name: "F0H and FEH in turn",
        make: |size| [0xF0, 0xFE].repeat(size / 2),
        shorten: |_| {},
        cable: None,
    },
    Kind {
        name: "banks",
        make: banks,
        shorten: |_| {},
        cable: Some(1),
    },
    Kind {
        name: "banks, FEH behind every 16th byte",
        make: |size| {
            let mut input = inputs::with_active_sensing(&banks(size), 16);
            input.truncate(size);
            input
        },
        shorten: |_| {},
        cable: None,
    },
    Kind {
        name: "splits",
        make: splits,
        shorten: |_| {},
        cable: None,
    },
    Kind {
        name: "random bytes",
        make: |size| {
            let mut random = Random::new(SEED);
            inputs::bytes(&mut random, size)
        },
        shorten: |_| {},
        cable: None,
    },
];

fn behind_one_start(byte: u8, size: usize) -> Vec<u8> {
    let mut input = vec![byte; size];
    input[0] = 0xF0;
    input
}

/// Banks of a hundred good patches end to end, the last one cut.
fn banks(size: usize) -> Vec<u8> {
    let mut random = Random::new(SEED);
    let patches: Vec<u8> = (0..BANK_PATCHES)
        .flat_map(|_| inputs::good_patch(&mut random))
        .collect();
    let mut bank = vec![0; 275 * BANK_PATCHES];
    let written = reference::write_bank(&patches, &mut bank);
    assert_eq!(written.answer, 0, "a hundred good patches");
    bank.into_iter().cycle().take(size).collect()
}

/// Fifty good splits numbered from 0, again and again, the last one cut.
fn splits(size: usize) -> Vec<u8> {
    let mut random = Random::new(SEED);
    let mut dumps = vec![0; 43 * 50];
    for (number, dump) in (0..).zip(dumps.chunks_exact_mut(43)) {
        let written = reference::write_split(number, &inputs::good_split(&mut random), dump);
        assert_eq!(written.answer, 0, "a good split");
    }
    dumps.into_iter().cycle().take(size).collect()
}

/// Goes through the reports of an input, giving each to the function until it says stop.
type Through = fn(&[u8], &mut dyn FnMut(&Flat) -> bool);

/// By calls for eight reports each.
fn by_reports(input: &[u8], each: &mut dyn FnMut(&Flat) -> bool) {
    let mut room = [ffi::EMPTY; A_CALL];
    let mut place = 0;
    loop {
        let made = ffi::reports(input, place, room.as_flattened_mut());
        let reports = &room[..made.count];
        if reports.is_empty() || !reports.iter().all(&mut *each) {
            return;
        }
        place = made.next;
    }
}

/// By a walk from each end.
fn by_walk(input: &[u8], each: &mut dyn FnMut(&Flat) -> bool) {
    let mut place = 0;
    loop {
        let report = ffi::walk(input, place);
        if report.outcome.answer == NO_MESSAGE || !each(&numbers(report)) {
            return;
        }
        place = report.end;
    }
}

/// Straight from the cable.
fn by_cable(input: &[u8], each: &mut dyn FnMut(&Flat) -> bool) {
    let mut record = ffi::cable_fresh();
    for mut piece in input.chunks(PIECE) {
        while !piece.is_empty() {
            let fed = ffi::cable_feed(&mut record, piece);
            if fed.ended && !each(&numbers(fed.reading.report)) {
                return;
            }
            piece = &piece[fed.taken..];
        }
    }
    let fed = ffi::cable_end(&mut record);
    if fed.ended {
        each(&numbers(fed.reading.report));
    }
}

fn numbers(report: ffi::Report) -> Flat {
    let ffi::Report {
        start,
        end,
        outcome,
        noise,
    } = report;
    let ffi::Outcome {
        answer,
        value,
        detail,
    } = outcome;
    [start, end, answer.into(), detail, word(value), noise]
}

/// A way with its name.
type Way = (&'static str, Through);

const WAYS: [Way; 2] = [("reports", by_reports), ("walk", by_walk)];
const CABLE: Way = ("cable", by_cable);

/// Whether the library's reports are the second program's; how many there are.
fn agree(input: &[u8], through: Through) -> Option<usize> {
    let mut expected = reference::reports(input);
    let mut count = 0;
    let mut same = true;
    through(input, &mut |report| {
        let wanted = expected.next();
        same = wanted.map(flat) == Some(*report);
        if !same {
            println!(
                "report {count} differs: the library has {report:?}, the second program {wanted:?}"
            );
        }
        count += 1;
        same
    });
    if !same {
        return None;
    }
    if let Some(missing) = expected.next() {
        println!("report {count} differs: the library has none, the second program {missing:?}");
        return None;
    }
    Some(count)
}

/// How long it takes to go through the reports of these inputs.
fn time<'a>(inputs: impl Iterator<Item = &'a [u8]>, through: Through) -> Duration {
    let before = clock::now();
    for input in inputs {
        let mut all = 0_usize;
        through(black_box(input), &mut |report| {
            all = all.wrapping_add(report[1] ^ report[2]);
            true
        });
        black_box(all);
    }
    clock::now() - before
}

/// Nanoseconds per byte: the long input, short ones from memory, one short one from the cache.
fn figures(input: &[u8], short: &[u8], through: Through, rounds: usize) -> [f64; 3] {
    let mut times = [const { Vec::new() }; 3];
    let hot = || std::iter::repeat_n(&short[..SHORT], input.len() / SHORT);
    for _ in 0..rounds {
        times[0].push(time(std::iter::once(input), through));
        times[1].push(time(short.chunks(SHORT), through));
        times[2].push(time(hot(), through));
    }
    times.map(|times| {
        let least = times.into_iter().min().expect("a round at least");
        least.as_nanos() as f64 / input.len() as f64
    })
}

/// By how much time per byte grows.
fn growth([long, from_memory, _]: [f64; 3]) -> f64 {
    long / from_memory
}

/// The first figures without too much growth, or the last.
fn measured(input: &[u8], short: &[u8], through: Through, rounds: usize) -> [f64; 3] {
    for _ in 1..MEASURES {
        let figures = figures(input, short, through, rounds);
        if growth(figures) <= MOST_GROWTH {
            return figures;
        }
    }
    figures(input, short, through, rounds)
}

/// Compares and times all kinds of input at this many MiB; whether all held.
pub fn run(mebibytes: usize) -> bool {
    let size = mebibytes << 20;
    let rounds = if mebibytes < 16 { 15 } else { 5 };
    println!("inputs of {mebibytes} MiB, seed {SEED}, {}", stack_limit());
    println!(
        "ns per byte: at {mebibytes} MiB, at 64 KiB from memory, growth; at 64 KiB from the cache"
    );
    println!("of F0H only by cable an eighth is timed");
    let mut held = true;
    for kind in &KINDS {
        let input = (kind.make)(size);
        let mut short = input.clone();
        short.chunks_mut(SHORT).for_each(kind.shorten);
        for way in WAYS {
            let Some(good) = row(kind, way, [&input, &short], 1, rounds) else {
                return false;
            };
            held &= good;
        }
        if let Some(part) = kind.cable {
            let Some(good) = cable_row(kind, [&input, &short], part, rounds) else {
                return false;
            };
            held &= good;
        }
    }
    held
}

/// Compares a way on an input and times it on a part of that; whether its time grows little enough, or
/// none where the programs differ.
fn row(
    kind: &Kind,
    (way, through): Way,
    [input, short]: [&[u8]; 2],
    part: usize,
    rounds: usize,
) -> Option<bool> {
    let name = kind.name;
    let Some(count) = agree(input, through) else {
        println!("{name}, by {way}: the programs differ");
        return None;
    };
    let timed = input.len() / part;
    let figures = measured(&input[..timed], &short[..timed], through, rounds);
    let [long, from_memory, from_cache] = figures;
    let growth = growth(figures);
    let good = growth <= MOST_GROWTH;
    let verdict = if good { "" } else { " TOO MUCH" };
    println!(
        "{name:<20} by {way:<8} {count:>9} reports the same  {long:8.3} {from_memory:8.3}  x{growth:.2}{verdict}  {from_cache:8.3}"
    );
    Some(good)
}

/// The same from the cable, where what both programs tell and leave is compared call by call too.
fn cable_row(kind: &Kind, inputs: [&[u8]; 2], part: usize, rounds: usize) -> Option<bool> {
    let [input, _] = inputs;
    for (input, size) in [(input, PIECE), (&input[..input.len() / ONE_BY_ONE], 1)] {
        let mut both = Both::fresh();
        let mut messages = 0;
        let same = both.feed_all(input.chunks(size), |_, _| messages += 1);
        let verdict = match same {
            None => "the programs differ",
            Some(()) if messages == 0 => "nothing to compare: no message",
            Some(()) => "the same",
        };
        let (name, bytes, calls) = (kind.name, input.len(), both.calls);
        println!("{name:<20} from the cable by {size}: {bytes} bytes, {calls} calls, {messages} messages: {verdict}");
        if messages == 0 {
            return None;
        }
        same?;
    }
    row(kind, CABLE, inputs, part, rounds)
}

/// The soft limit of the stack, as the system has it.
fn stack_limit() -> String {
    let limits = fs::read_to_string("/proc/self/limits").unwrap_or_default();
    let line = limits
        .lines()
        .find(|line| line.starts_with("Max stack size"));
    match line.and_then(|line| line.split_whitespace().nth(3)) {
        Some(limit) => format!("stack limit {limit} bytes"),
        None => String::from("stack limit not known"),
    }
}

//! Compares every exported routine of the library with the second program, byte for byte.
//!
//!     compare [COUNT] [SEED]     COUNT inputs for each routine (3,000), from SEED on (0); then short
//!                                streams straight from the cable, cut at every place
//!     compare long [MIB]         reports and growth on inputs of MIB mebibytes (64)
//!     compare stack [COUNT]      how deep each routine's stack goes, on COUNT inputs each (1,000)
//!     compare routines           the names of the routines that are compared
//!
//! Input number i of a routine is made from seed SEED + i alone. A difference prints that seed, all
//! that was lent, and what either program returned and left, and ends the run with status 1.

mod cable;
mod calls;
mod cuts;
mod feeds;
mod found;
mod lent;
mod long;
mod operations;
mod pairs;
mod routines;
mod slips;
mod stack;
mod units;

use std::collections::BTreeMap;
use std::env;
use std::process::{self, ExitCode};

use lent::Call;
use reference::streams::Random;
use routines::{Returned, Routine, Source, ROUTINES};

/// The number of inputs for each routine where the command line names none.
const COUNT: usize = 3_000;

fn main() -> ExitCode {
    let words: Vec<String> = env::args().skip(1).collect();
    let words: Vec<&str> = words.iter().map(String::as_str).collect();
    let held = match words[..] {
        ["long"] => long::run(64),
        ["long", mebibytes] => long::run(some(mebibytes)),
        ["stack"] => stack::run(stack::COUNT),
        ["stack", count] => stack::run(some(count)),
        ["routines"] => {
            ROUTINES
                .iter()
                .for_each(|routine| println!("matrix_{}", routine.name));
            true
        }
        [] => compare(COUNT, 0),
        [count] => compare(some(count), 0),
        [count, seed] => compare(some(count), number(seed)),
        _ => stop("compare [COUNT] [SEED] | compare long [MIB] | compare stack [COUNT] | compare routines"),
    };
    ExitCode::from(u8::from(!held))
}

fn number<T: std::str::FromStr>(word: &str) -> T {
    let number = word.parse().ok();
    number.unwrap_or_else(|| stop(&format!("not a number: {word}")))
}

/// How many, or how much, to compare.
fn some(word: &str) -> usize {
    match number(word) {
        0 => stop("nothing to compare: at least 1"),
        some => some,
    }
}

fn stop(why: &str) -> ! {
    eprintln!("{why}");
    process::exit(2)
}

fn compare(count: usize, first_seed: u64) -> bool {
    println!("{count} inputs for each routine, seeds from {first_seed} on");
    let same = |routine| compare_routine(routine, count, first_seed);
    ROUTINES.iter().all(same) && cuts::run()
}

fn compare_routine(routine: &Routine, count: usize, first_seed: u64) -> bool {
    let count = match routine.source {
        Source::Any(_) => count,
        Source::Every(all, _) => all,
    };
    let mut returned = BTreeMap::<usize, usize>::new();
    for index in 0..count {
        let seed = first_seed.wrapping_add(index as u64);
        let mut random = Random::new(seed);
        let call = match routine.source {
            Source::Any(make) => make(&mut random),
            Source::Every(_, make) => make(&mut random, index),
        };
        let Some(same) = compare_call(routine, &call) else {
            println!("  seed {seed}, index {index}");
            return false;
        };
        for &known_by in same.known_by() {
            *returned.entry(known_by).or_default() += 1;
        }
    }
    let calls: usize = returned.values().sum();
    if calls < count {
        println!("{routine}: {count} inputs and {calls} calls, so nothing was compared for some");
        return false;
    }
    print!("{routine}: {count} inputs the same");
    if calls > count {
        print!(", {calls} calls");
    }
    print!("; returned");
    match returned.len() {
        0..=16 => returned
            .iter()
            .for_each(|(value, times)| print!(" {value}:{times}")),
        many => print!(" {many} different values"),
    }
    println!();
    true
}

/// What both programs return, or none and a print where something differs.
fn compare_call(routine: &Routine, call: &Call) -> Option<Returned> {
    let (mut library, mut expected) = (call.clone(), call.clone());
    let returned = (routine.library)(&mut library);
    let expected_return = (routine.expected)(&mut expected);
    if returned == expected_return && library == expected {
        return Some(returned);
    }
    if let (Some(library), Some(expected)) = (&mut library.run, &mut expected.run) {
        library.keep_difference(expected);
    }
    println!("{routine}: the programs differ");
    println!("  given\n{call}");
    println!("  the library returned {returned:?} and left\n{library}");
    println!("  the second program returned {expected_return:?} and left\n{expected}");
    None
}

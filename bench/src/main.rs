//! The library against the second program's own routines: same input, same run, rounds in turn.
//!
//!     bench [--quick]
//!
//! For each job a line with the throughput of both, and where that is of bytes the time for each; then
//! a line `ratio NAME X`: the library's median time on the processor over plain Rust's. Both are built
//! for release, for the same processor (x86-64 without extensions where nothing else is set). Both get
//! the same input and buffers of the same length, which are touched before the first round and not
//! cleared between calls. Answers and bytes of what was written are used, and both programs' results
//! are held against each other before anything is timed.

mod jobs;

use std::env;
use std::hint::black_box;
use std::process;
use std::time::Duration;

use compare::clock;
use jobs::Job;

/// How long and how often to measure.
struct Effort {
    sample: Duration,
    rounds: usize,
}

const FULL: Effort = Effort {
    sample: Duration::from_millis(1),
    rounds: 301,
};
const QUICK: Effort = Effort {
    sample: Duration::from_millis(1),
    rounds: 51,
};

fn main() {
    let words: Vec<String> = env::args().skip(1).collect();
    let words: Vec<&str> = words.iter().map(String::as_str).collect();
    let effort = match words[..] {
        [] => FULL,
        ["--quick"] => QUICK,
        _ => {
            eprintln!("bench [--quick]");
            process::exit(2)
        }
    };
    let Effort { sample, rounds } = effort;
    println!("{rounds} rounds in turn, about {sample:?} each, the median; buffers not cleared between calls");
    for mut job in jobs::all() {
        measure(&mut job, &effort);
    }
}

fn measure(job: &mut Job, effort: &Effort) {
    assert_eq!(
        (job.library)(),
        (job.plain)(),
        "{}: the results differ",
        job.name
    );
    // Each fills its samples, however much faster the other is.
    let passes = [
        passes(&mut job.library, effort.sample),
        passes(&mut job.plain, effort.sample),
    ];
    let mut times = [Vec::new(), Vec::new()];
    for round in 0..effort.rounds {
        // Who comes first takes turns too.
        for turn in 0..2 {
            let who = (round + turn) % 2;
            let run = if who == 0 {
                &mut job.library
            } else {
                &mut job.plain
            };
            let taken = time(run, passes[who]).as_secs_f64();
            times[who].push(taken / f64::from(passes[who]));
        }
    }
    let [library, plain] = times.map(median);
    let Job {
        name, amount, unit, ..
    } = job;
    let rate = |seconds: f64| *amount as f64 / seconds / 1e6;
    let each = |seconds: f64| match *unit {
        "MB/s" => format!(" ({:.2} ns a byte)", seconds * 1e9 / *amount as f64),
        _ => String::new(),
    };
    println!(
        "{name}: library {:.1} {unit}{}, plain Rust {:.1} {unit}{}",
        rate(library),
        each(library),
        rate(plain),
        each(plain)
    );
    println!("ratio {name} {:.2}", library / plain);
}

/// How many passes fill a sample.
fn passes(run: &mut dyn FnMut() -> usize, sample: Duration) -> u32 {
    let mut passes = 1;
    loop {
        let taken = time(run, passes);
        if taken >= sample / 2 {
            let wanted = sample.as_secs_f64() / taken.as_secs_f64() * f64::from(passes);
            return wanted.ceil() as u32;
        }
        passes *= 2;
    }
}

fn time(run: &mut dyn FnMut() -> usize, passes: u32) -> Duration {
    let before = clock::now();
    for _ in 0..passes {
        black_box(run());
    }
    clock::now() - before
}

fn median(mut times: Vec<f64>) -> f64 {
    times.sort_by(f64::total_cmp);
    times[times.len() / 2]
}

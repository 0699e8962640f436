//! The desk's filing command: what it prints of a file, and what it says.

use std::fs::File;
use std::io::Write;
use std::process::{Command, Output, Stdio};

use reference::streams::stored::{stored_input, stored_new};
use reference::{stored_file, LONGEST_INPUT};

use crate::kit::{bass, dump, edit_message, p_with, P};
use crate::stored_model;

/// The command says this of a file, and prints nothing.
fn says(file: &[u8], back: bool, expected: &str) {
    let (printed, said) = stored_file(file, back);
    assert_eq!(String::from_utf8(said).unwrap(), expected);
    assert!(printed.is_empty());
}

/// It prints another file of a file, and says that it is done.
fn prints(file: &[u8], back: bool, expected: &[u8]) {
    let (printed, said) = stored_file(file, back);
    assert_eq!(said, b"done\n");
    assert_eq!(printed, expected);
}

#[test]
fn files_that_are_done() {
    let header = [0, 0, 10, 0, 0, 0, 10, 0, 10, 0];
    prints(&[], false, &header);
    prints(&header, true, &[]);
    let (old, header) = (dump(0x01, 7, &bass()), [1, 0, 10, 0, 0, 0, 145, 0, 145, 0]);
    let new = [&header[..], &[7], &bass()].concat();
    prints(&old, false, &new);
    prints(&new, true, &old);
}

#[test]
fn files_that_are_refused() {
    let old = dump(0x01, 7, &P);
    says(&[0xFE], false, "refused: 15 0 0 0\n");
    says(&[], true, "refused: 15 0 0 0\n");
    says(&old, true, "refused: 15 0 0 0\n");
    says(&edit_message([0x15, 0x7F]), false, "refused: 15 0 0 0\n");
    let two = |second: &[u8]| [&old[..], second].concat();
    says(&two(&old[..274]), false, "refused: 2 275 0 0\n");
    says(&two(&dump(0x01, 100, &P)), false, "refused: 8 275 0 0\n");
    let wide = p_with(19, &[0x80]);
    says(
        &two(&dump(0x01, 7, &wide)),
        false,
        "refused: 11 275 19 -128\n",
    );
    let half = p_with(131, &[1]);
    says(&two(&dump(0x01, 7, &half)), false, "refused: 12 275 9 0\n");

    let (mut new, _) = stored_file(&two(&old), false);
    new[145] = 255;
    says(&new, true, "refused: 8 145 0 0\n");
    new[145] = 0;
    new[146 + 76] = 21;
    says(&new, true, "refused: 11 145 76 21\n");
}

#[test]
fn files_too_long() {
    // As long as they may be, by real time inside.
    let whole = dump(0x01, 7, &P);
    let (new, _) = stored_file(&whole, false);
    let noisy = |length| [&whole[..9], &vec![0xFE; length - 275], &whole[9..]].concat();
    prints(&noisy(LONGEST_INPUT), false, &new);
    says(&noisy(LONGEST_INPUT + 1), false, "input too long\n");
    says(&vec![0; LONGEST_INPUT], true, "refused: 15 0 0 0\n");
    says(&vec![0; LONGEST_INPUT + 1], true, "input too long\n");
    says(&vec![0xF0; LONGEST_INPUT], false, "refused: 3 0 0 0\n");
    says(&vec![0xF0; 1 << 20], false, "input too long\n");
}

/// What it prints and says, told from the model.
fn told(file: &[u8], back: bool) -> (Vec<u8>, Vec<u8>) {
    if file.len() > 65_536 {
        return (Vec::new(), b"input too long\n".to_vec());
    }
    let (outcome, written) = if back {
        stored_model::from_stored(file, usize::MAX)
    } else {
        stored_model::to_stored(file, usize::MAX)
    };
    let said = match outcome.answer {
        0 => "done\n".to_owned(),
        answer => {
            let numbers = [answer.into(), outcome.place, outcome.detail];
            let numbers = numbers.map(|number: usize| number.to_string()).join(" ");
            format!("refused: {numbers} {}\n", outcome.value)
        }
    };
    (written, said.into_bytes())
}

#[test]
fn files_of_many_seeds() {
    for seed in 0..2_000 {
        for (file, back) in [(stored_input(seed), false), (stored_new(seed), true)] {
            assert_eq!(stored_file(&file, back), told(&file, back), "seed {seed}");
        }
    }
}

// The program.

fn run(input: &[u8]) -> Output {
    let mut program = Command::new(env!("CARGO_BIN_EXE_reference-stored"))
        .stdin(Stdio::piped())
        .stdout(Stdio::piped())
        .stderr(Stdio::piped())
        .spawn()
        .unwrap();
    // A program that has read enough closes its end, so a failed write is no fault.
    let _ = program.stdin.take().unwrap().write_all(input);
    program.wait_with_output().unwrap()
}

/// The program prints and says what the command does, of the file behind this first byte.
fn runs(first: u8, file: &[u8]) {
    let output = run(&[&[first], file].concat());
    assert!(output.status.success());
    let expected = stored_file(file, first != 0);
    assert_eq!((output.stdout, output.stderr), expected);
}

#[test]
fn the_filing_program() {
    for seed in 0..60 {
        runs(0, &stored_input(seed));
        runs(1, &stored_new(seed));
    }
    // Any first byte but 0 is the way back.
    let (new, _) = stored_file(&dump(0x01, 7, &P), false);
    for first in [1, 2, 0x7F, 0xF0, 0xFF] {
        runs(first, &new);
        runs(first, &[]);
    }
    runs(0, &[]);
    for length in [LONGEST_INPUT, LONGEST_INPUT + 1, 200_000] {
        runs(0, &vec![0; length]);
        runs(1, &vec![0; length]);
    }
}

#[test]
fn the_filing_program_without_input() {
    let output = run(&[]);
    assert!(output.status.success());
    assert_eq!(output.stdout, [0, 0, 10, 0, 0, 0, 10, 0, 10, 0]);
    assert_eq!(output.stderr, b"done\n");
}

/// It says that it is done only when the file is written.
#[test]
fn a_file_that_cannot_be_written() {
    let output = Command::new(env!("CARGO_BIN_EXE_reference-stored"))
        .stdin(Stdio::null())
        .stdout(File::create("/dev/full").unwrap())
        .output()
        .unwrap();
    assert!(!output.status.success());
    assert!(!output.stderr.is_empty() && !output.stderr.ends_with(b"done\n"));
}

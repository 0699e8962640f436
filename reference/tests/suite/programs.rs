//! The listing, stream and table programs, run as a user runs them.

use std::io::Write;
use std::path::PathBuf;
use std::process::{Command, Output, Stdio};
use std::{env, fs, process};

use reference::streams::{stream, CYCLE};

fn listing_of(input: &[u8]) -> Vec<u8> {
    let mut program = Command::new(env!("CARGO_BIN_EXE_reference-listing"))
        .stdin(Stdio::piped())
        .stdout(Stdio::piped())
        .spawn()
        .unwrap();
    // A program that has read enough closes its end, so a failed write is no fault.
    let _ = program.stdin.take().unwrap().write_all(input);
    let output = program.wait_with_output().unwrap();
    assert!(output.status.success());
    output.stdout
}

fn streams(arguments: &[&str]) -> Output {
    Command::new(env!("CARGO_BIN_EXE_reference-streams"))
        .args(arguments)
        .output()
        .unwrap()
}

#[test]
fn the_listing_program() {
    let example = [
        0x41, 0xF0, 0xF7, 0xF0, 0x10, 0x06, 0x06, 0x15, 0x7F, 0xF7, 0xF0,
    ];
    assert_eq!(
        listing_of(&example),
        b"start end answer detail value rt\n1 3 4 0 0 0\n3 10 0 6 0 0\n10 11 2 0 0 0\nmessages 3\n"
    );
    assert_eq!(
        listing_of(&[]),
        b"start end answer detail value rt\nmessages 0\n"
    );
    assert_eq!(
        listing_of(&[0; 65_536]),
        b"start end answer detail value rt\nmessages 0\n"
    );
    assert_eq!(listing_of(&[0; 65_537]), b"input too long\n");
    assert_eq!(listing_of(&vec![0xF0; 1 << 20]), b"input too long\n");
}

/// A directory that goes away with the test.
struct Scratch(PathBuf);

impl Drop for Scratch {
    fn drop(&mut self) {
        let _ = fs::remove_dir_all(&self.0);
    }
}

#[test]
fn the_stream_program() {
    let directory = env::temp_dir().join(format!("reference-streams-{}", process::id()));
    let scratch = Scratch(directory);
    // The last seeds of a cycle make the sizes at the limit.
    let from = CYCLE - 12;
    let output = streams(&[&from.to_string(), "12", scratch.0.to_str().unwrap()]);
    assert!(output.status.success());
    assert_eq!(fs::read_dir(&scratch.0).unwrap().count(), 24);
    for seed in from..CYCLE {
        let input = fs::read(scratch.0.join(format!("{seed}.syx"))).unwrap();
        let expected = fs::read(scratch.0.join(format!("{seed}.expected"))).unwrap();
        assert_eq!(input, stream(seed));
        assert_eq!(listing_of(&input), expected);
    }
}

#[test]
fn the_stream_program_refuses_other_arguments() {
    for arguments in [
        &[][..],
        &["1", "2"],
        &["x", "1", "/nowhere"],
        &["1", "-1", "/nowhere"],
    ] {
        let output = streams(arguments);
        assert!(!output.status.success());
        assert!(output.stderr.starts_with(b"usage: "));
    }
}

#[test]
fn the_table_program() {
    let output = Command::new(env!("CARGO_BIN_EXE_reference-table"))
        .output()
        .unwrap();
    assert!(output.status.success());
    let text = String::from_utf8(output.stdout).unwrap();
    let lines: Vec<&str> = text.lines().collect();
    assert_eq!(lines.len(), 134);
    assert!(text.ends_with('\n'));
    assert_eq!(lines[0], "0 - 0 63");
    assert_eq!(lines[8], "8 48 0 3");
    assert_eq!(lines[19], "19 12 -32 31");
    assert_eq!(lines[26], "26 21 0 127");
    assert_eq!(lines[76], "76 33 1 20");
    assert_eq!(lines[103], "103 91 -64 63");
    assert_eq!(lines[133], "133 - 0 32");
}

#[test]
fn the_table_program_with_splits() {
    let output = Command::new(env!("CARGO_BIN_EXE_reference-table"))
        .arg("--splits")
        .output()
        .unwrap();
    assert!(output.status.success());
    let expected = "0 - 0 63\n1 - 0 63\n2 - 0 63\n3 - 0 63\n4 - 0 63\n5 - 0 63\n6 - 0 63\n\
        7 - 0 63\n8 - 0 127\n9 - 0 127\n10 0 0 127\n11 1 -32 31\n12 2 0 1\n13 3 0 127\n\
        14 4 -32 31\n15 5 0 1\n16 6 -32 31\n17 7 0 3\n";
    assert_eq!(String::from_utf8(output.stdout).unwrap(), expected);
}

#[test]
fn the_table_program_refuses_other_arguments() {
    for arguments in [&["--patches"][..], &["--splits", "--splits"], &[""]] {
        let output = Command::new(env!("CARGO_BIN_EXE_reference-table"))
            .args(arguments)
            .output()
            .unwrap();
        assert!(!output.status.success() && output.stdout.is_empty());
        assert!(output.stderr.starts_with(b"usage: "));
    }
}

//! Writes the streams of consecutive seeds, and the listing expected for each, into a directory.

use std::path::Path;
use std::process::ExitCode;
use std::{fs, io};

use reference::listing;
use reference::streams::seeds::write_each;
use reference::streams::stream;

fn main() -> ExitCode {
    write_each("usage: reference-streams FROM COUNT DIR", write)
}

fn write(directory: &Path, seed: u64) -> io::Result<()> {
    let input = stream(seed);
    fs::write(directory.join(format!("{seed}.expected")), listing(&input))?;
    fs::write(directory.join(format!("{seed}.syx")), input)
}

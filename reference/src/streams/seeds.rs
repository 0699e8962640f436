//! The files of consecutive seeds in a directory, as two of the programs write them.

use std::error::Error;
use std::path::Path;
use std::process::ExitCode;
use std::{env, fs, io};

/// Writes the files of each seed. The program's arguments are the first seed, how many there are,
/// and the directory.
pub fn write_each(usage: &str, write: impl Fn(&Path, u64) -> io::Result<()>) -> ExitCode {
    let arguments: Vec<String> = env::args().skip(1).collect();
    match run(usage, &arguments, write) {
        Ok(()) => ExitCode::SUCCESS,
        Err(error) => {
            eprintln!("{error}");
            ExitCode::FAILURE
        }
    }
}

fn run(
    usage: &str,
    arguments: &[String],
    write: impl Fn(&Path, u64) -> io::Result<()>,
) -> Result<(), Box<dyn Error>> {
    let [from, count, directory] = arguments else {
        return Err(usage.into());
    };
    let from: u64 = from.parse().map_err(|_| usage)?;
    let count: u64 = count.parse().map_err(|_| usage)?;
    let end = from.checked_add(count).ok_or(usage)?;
    let directory = Path::new(directory);
    fs::create_dir_all(directory)?;
    for seed in from..end {
        write(directory, seed)?;
    }
    Ok(())
}

//! Plans the edits that turn the patch in one file into the patch in another.

use std::env;
use std::error::Error;
use std::ffi::OsString;
use std::fs::File;
use std::io::{self, Read, Write};
use std::path::Path;
use std::process::ExitCode;

use reference::{plan_files, LONGEST_INPUT};

const USAGE: &str = "usage: reference-plan [--list] RETURNED LENT";

fn main() -> ExitCode {
    let arguments: Vec<OsString> = env::args_os().skip(1).collect();
    match run(&arguments) {
        Ok(Ok(())) => ExitCode::SUCCESS,
        Ok(Err(line)) => {
            // Where standard error is closed too, the status is all that is left.
            let _ = io::stderr().write_all(&line);
            ExitCode::FAILURE
        }
        Err(error) => {
            eprintln!("{error}");
            ExitCode::FAILURE
        }
    }
}

/// Prints the list or its lines, or gives the line that says why there is none.
fn run(arguments: &[OsString]) -> Result<Result<(), Vec<u8>>, Box<dyn Error>> {
    let (lines, files) = match arguments {
        [option, files @ ..] if option == "--list" => (true, files),
        files => (false, files),
    };
    let [returned, lent] = files else {
        return Err(USAGE.into());
    };
    let returned = input("returned", returned.as_ref())?;
    let lent = input("lent", lent.as_ref())?;
    match plan_files(&returned, &lent, lines) {
        Ok(text) => Ok(Ok(print(&text)?)),
        Err(line) => Ok(Err(line)),
    }
}

/// Prints all of it: a list of edits needn't end with a newline, and what is left in the buffer would
/// be lost without a word.
fn print(text: &[u8]) -> io::Result<()> {
    let mut out = io::stdout().lock();
    out.write_all(text)?;
    out.flush()
}

/// A file's bytes. One more than is taken tells that it is too long, however long it is.
fn input(which: &str, path: &Path) -> Result<Vec<u8>, String> {
    let most = LONGEST_INPUT as u64 + 1;
    let mut bytes = Vec::new();
    File::open(path)
        .and_then(|file| file.take(most).read_to_end(&mut bytes))
        .map_err(|error| format!("{which}: {error}"))?;
    Ok(bytes)
}

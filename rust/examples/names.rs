//! Lists the names of the patches in .syx files.
//!
//!     cargo run --example names -- FILE...

use std::process::ExitCode;
use std::{env, fs};

use matrix1000::{messages, Message};

fn main() -> ExitCode {
    let files: Vec<_> = env::args_os().skip(1).collect();
    if files.is_empty() {
        eprintln!("names FILE...");
        return ExitCode::FAILURE;
    }
    let mut status = ExitCode::SUCCESS;
    for file in files {
        match fs::read(&file) {
            Ok(input) => list(&input),
            Err(error) => {
                eprintln!("{}: {error}", file.display());
                status = ExitCode::FAILURE;
            }
        }
    }
    status
}

/// Prints a line for each patch, and one to standard error for each message that was refused.
fn list(input: &[u8]) {
    for found in messages(input) {
        match found.message {
            Ok(Message::Patch { number, patch }) => println!("{number:>2}  {}", patch.name()),
            Ok(Message::EditBuffer(patch)) => println!(" -  {}", patch.name()),
            Ok(_) => {}
            Err(error) => eprintln!(
                "bytes {} to {}: {error} ({} {} {})",
                found.start,
                found.end,
                error.number(),
                error.detail(),
                error.value()
            ),
        }
    }
}

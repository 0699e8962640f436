//! Prints the field table of a patch, or of a split: place, parameter, least and greatest value of
//! each byte.

use std::env;
use std::io::{self, BufWriter, Write};
use std::process::ExitCode;

use reference::table::Row;
use reference::{splits, table};

fn main() -> ExitCode {
    let arguments: Vec<String> = env::args().skip(1).collect();
    let arguments: Vec<&str> = arguments.iter().map(String::as_str).collect();
    let rows: &[Row] = match arguments[..] {
        [] => &table::ROWS,
        ["--splits"] => &splits::ROWS,
        _ => {
            eprintln!("usage: reference-table [--splits]");
            return ExitCode::FAILURE;
        }
    };
    match print(rows) {
        Ok(()) => ExitCode::SUCCESS,
        Err(error) => {
            eprintln!("{error}");
            ExitCode::FAILURE
        }
    }
}

fn print(rows: &[Row]) -> io::Result<()> {
    let mut out = BufWriter::new(io::stdout().lock());
    for row in rows {
        match row.parameter {
            Some(parameter) => write!(out, "{} {parameter}", row.place)?,
            None => write!(out, "{} -", row.place)?,
        }
        writeln!(out, " {} {}", row.least, row.greatest)?;
    }
    out.flush()
}

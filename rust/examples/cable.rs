//! Lists the messages that come in on standard input, however many bytes these are, in the columns of the
//! listing: a line as soon as a message has ended.
//!
//!     cargo run --example cable < /dev/snd/midiC1D0

use std::io::{self, Read, Write};
use std::process::ExitCode;

use matrix1000::incoming;

fn main() -> ExitCode {
    match list(io::stdin().lock(), io::stdout().lock()) {
        Ok(()) => ExitCode::SUCCESS,
        Err(error) => {
            eprintln!("cable: {error}");
            ExitCode::FAILURE
        }
    }
}

/// Writes a line for each message, and at the end of the input how many there were.
fn list(input: impl Read, mut output: impl Write) -> io::Result<()> {
    writeln!(output, "start end answer detail value rt")?;
    output.flush()?;
    let mut count = 0_u64;
    for found in incoming(input) {
        let found = found?;
        let (answer, detail, value) = match found.message {
            Ok(message) => (0, message.kind().opcode().into(), 0),
            Err(error) => (error.number(), error.detail(), error.value()),
        };
        let (start, end, noise) = (found.start, found.end, found.noise);
        writeln!(output, "{start} {end} {answer} {detail} {value} {noise}")?;
        output.flush()?;
        count += 1;
    }
    writeln!(output, "messages {count}")?;
    output.flush()
}

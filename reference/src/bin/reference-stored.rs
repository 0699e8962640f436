//! Turns the stored file of a unit into its new form, or back into the old. The first byte of
//! standard input says which way: 0 for the new form, any other for the way back. The rest is the
//! file.

use std::io::{self, Read, Write};

use reference::{stored_file, LONGEST_INPUT};

fn main() -> io::Result<()> {
    let mut input = Vec::new();
    // Besides the first byte, one more than is taken tells that the file is too long.
    let most = LONGEST_INPUT as u64 + 2;
    io::stdin().lock().take(most).read_to_end(&mut input)?;
    let (back, file) = match input.split_first() {
        Some((&way, file)) => (way != 0, file),
        None => (false, &[][..]),
    };
    let (file, line) = stored_file(file, back);
    print(&file)?;
    io::stderr().lock().write_all(&line)
}

/// Prints all of it: a file needn't end with a newline, and what is left in the buffer would be
/// lost without a word.
fn print(file: &[u8]) -> io::Result<()> {
    let mut out = io::stdout().lock();
    out.write_all(file)?;
    out.flush()
}

//! Lists the messages of standard input.

use std::io::{self, Read, Write};

use reference::{listing, LONGEST_INPUT};

fn main() -> io::Result<()> {
    let mut input = Vec::new();
    // One byte more than is taken tells that the input is too long, however long it is.
    let most = LONGEST_INPUT as u64 + 1;
    io::stdin().lock().take(most).read_to_end(&mut input)?;
    io::stdout().lock().write_all(&listing(&input))
}

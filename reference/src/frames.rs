//! Where a message starts and ends ("Finding a message").

/// Start of system exclusive.
pub const START: u8 = 0xF0;
/// End of system exclusive.
pub const END: u8 = 0xF7;

/// How a message ends, and of a complete one the bytes between F0H and F7H.
pub(crate) enum Ending<'a> {
    Complete(&'a [u8]),
    Interrupted,
    Cut,
}

/// A message's extent in the input, and how many bytes in it are real time.
pub(crate) struct Frame<'a> {
    pub start: usize,
    pub end: usize,
    pub noise: usize,
    pub ending: Ending<'a>,
}

/// Bytes inside a message, how many of them are real time, and the byte behind them, which ends it.
pub(crate) struct Inside<'a> {
    pub bytes: &'a [u8],
    pub noise: usize,
    pub status: Option<u8>,
}

/// Bytes F8H..FFH are real time.
#[must_use]
pub const fn is_real_time(byte: u8) -> bool {
    byte >= 0xF8
}

/// A message runs to the first later byte in 80H..F7H. Read as signed those are the bytes below
/// -8, one comparison.
const fn ends_message(byte: u8) -> bool {
    byte.cast_signed() < -8
}

/// The first message that starts at `place` or later.
#[inline]
pub(crate) fn next_frame(input: &[u8], place: usize) -> Option<Frame<'_>> {
    let start = place + position(input.get(place..)?, |byte| byte == START)?;
    let Inside {
        bytes,
        noise,
        status,
    } = inside(&input[start + 1..]);
    let end = start + 1 + bytes.len();
    let (end, ending) = match status {
        Some(END) => (end + 1, Ending::Complete(bytes)),
        // The byte that interrupts is not consumed.
        Some(_) => (end, Ending::Interrupted),
        None => (end, Ending::Cut),
    };
    Some(Frame {
        start,
        end,
        noise,
        ending,
    })
}

/// What stands inside a message, from a place in it on.
#[inline]
pub(crate) fn inside(rest: &[u8]) -> Inside<'_> {
    let length = position(rest, ends_message).unwrap_or(rest.len());
    let (bytes, behind) = rest.split_at(length);
    Inside {
        bytes,
        noise: count_real_time(bytes),
        status: behind.first().copied(),
    }
}

/// The first byte that is `wanted`. Blocks without one are passed over by a test without branches,
/// which compiles to vector instructions.
#[inline]
fn position(bytes: &[u8], wanted: impl Fn(u8) -> bool) -> Option<usize> {
    const BLOCK: usize = 16;
    let (blocks, _) = bytes.as_chunks::<BLOCK>();
    let without = |block: &&[u8; BLOCK]| !block.iter().fold(false, |any, &byte| any | wanted(byte));
    let passed = BLOCK * blocks.iter().take_while(without).count();
    let found = bytes[passed..].iter().position(|&byte| wanted(byte))?;
    Some(passed + found)
}

/// How many of the bytes inside a message are real time.
#[inline]
fn count_real_time(inside: &[u8]) -> usize {
    const BLOCK: usize = 128;
    // The others are data, below 80H. Usually all are.
    if inside.is_ascii() {
        return 0;
    }
    // The count of a block fits into a byte, so that it compiles to vector instructions.
    let counts = inside.chunks(BLOCK).map(|block| {
        let count: u8 = block.iter().map(|&byte| u8::from(is_real_time(byte))).sum();
        usize::from(count)
    });
    counts.sum()
}

//! Reading straight from the cable.

use std::io::{self, BufRead, BufReader};
use std::iter::FusedIterator;
use std::{fmt, iter};

use crate::ffi;
use crate::stream::Report;
use crate::{Error, Found};

/// A reader that is fed what has arrived so far, whether one byte or a thousand.
///
/// However a stream is cut into feeds, its messages are those that [`messages`](crate::messages) finds
/// in the whole of it. Nothing is allocated: a message that is open is kept in the reader, which has
/// room for the longest, and a longer one is followed to its end.
///
/// ```
/// use matrix1000::{Error, Kind, Reader};
///
/// // An edit in two pieces, and the start of another message.
/// let pieces = [&[0xF0, 0x10, 0x06, 0x06][..], &[0x15, 0x7F, 0xF7, 0xF0, 0x10]];
/// let mut reader = Reader::new();
/// let mut ended = Vec::new();
/// for mut arrived in pieces {
///     while !arrived.is_empty() {
///         let fed = reader.feed(arrived)?;
///         arrived = &arrived[fed.taken..];
///         ended.extend(fed.found);
///     }
/// }
/// assert_eq!(ended.len(), 1);
/// assert_eq!(ended[0].range(), 0..7);
/// assert_eq!(ended[0].message.map(|message| message.kind()), Ok(Kind::Edit));
///
/// // Only the end tells that the other one is cut.
/// assert!(reader.is_open());
/// let cut = reader.end().unwrap();
/// assert_eq!((cut.range(), cut.message), (7..9, Err(Error::Cut)));
/// # Ok::<(), Error>(())
/// ```
#[derive(Clone)]
pub struct Reader {
    state: ffi::Cable,
}

/// What became of a feed.
#[derive(Clone, Copy, Debug, PartialEq, Eq)]
#[non_exhaustive]
pub struct Fed {
    /// How many of the bytes were taken: those up to the end of the message, or all if none ended. The
    /// others are to be fed again.
    pub taken: usize,
    /// The message that ended, if one did, with its places from the first byte that the reader took.
    pub found: Option<Found>,
}

impl Reader {
    /// The length of the longest stream.
    pub const LONGEST: usize = 4_294_967_295;

    /// A reader at a fresh start.
    #[must_use]
    pub fn new() -> Self {
        Self {
            state: ffi::cable_fresh(),
        }
    }

    /// Takes bytes up to the end of the next message, or all if none ends.
    ///
    /// A status byte that interrupts a message is not taken with it, so a feed may tell of a message
    /// and take nothing; the next one then takes some.
    ///
    /// # Errors
    ///
    /// [`Error::NoMessage`] after the [`end`](Reader::end), before it [`Error::TooMany`] where these
    /// bytes and those taken so far are more than [`Reader::LONGEST`]. Nothing is taken or changed then.
    ///
    /// ```
    /// use matrix1000::{Error, Reader};
    ///
    /// let mut reader = Reader::new();
    /// reader.feed(&[0xF0, 0x10])?;
    /// // Another message begins.
    /// let fed = reader.feed(&[0xF0, 0x10, 0x06])?;
    /// assert_eq!(fed.taken, 0);
    /// assert_eq!(fed.found.unwrap().message, Err(Error::Interrupted));
    /// let again = reader.feed(&[0xF0, 0x10, 0x06])?;
    /// assert_eq!((again.taken, again.found), (3, None));
    /// # Ok::<(), Error>(())
    /// ```
    pub fn feed(&mut self, bytes: &[u8]) -> Result<Fed, Error> {
        let (taken, given) = (self.taken(), bytes.len());
        let opening = self.opening();
        let fed = ffi::cable_feed(&mut self.state, bytes);
        let ffi::Report { start, outcome, .. } = fed.reading.report;
        let found = if fed.ended {
            // Its bytes here begin with its F0H, or go on from the first byte.
            let here = &bytes[start.saturating_sub(taken)..];
            self.found(fed.reading, opening.chain(here.iter().copied()))
        } else {
            Error::check(outcome, |_| Error::TooMany { taken, given })?;
            None
        };
        Ok(Fed {
            taken: fed.taken,
            found,
        })
    }

    /// Declares that no more comes. A message that is open ends by it, and is refused by
    /// [`Error::Cut`].
    pub fn end(&mut self) -> Option<Found> {
        let fed = ffi::cable_end(&mut self.state);
        self.found(fed.reading, iter::empty())
    }

    /// The packed bytes of the dump that the last call found; none where it found no dump that is
    /// accepted. An empty feed finds none; a refused one changes nothing.
    ///
    /// ```
    /// use matrix1000::{Error, Message, Patch, Reader};
    ///
    /// let patch = Patch::default();
    /// let dump = Message::EditBuffer(patch).to_vec()?;
    /// let mut reader = Reader::new();
    /// let fed = reader.feed(&dump)?;
    /// assert_eq!(fed.found.unwrap().message, Ok(Message::EditBuffer(patch)));
    /// assert_eq!(reader.packed(), patch.as_bytes());
    /// reader.feed(&[])?;
    /// assert_eq!(reader.packed(), []);
    /// # Ok::<(), Error>(())
    /// ```
    #[must_use]
    pub fn packed(&self) -> &[u8] {
        if self.is_open() {
            return &[];
        }
        &self.state.bytes[..self.state.count]
    }

    /// How many bytes were taken so far.
    #[must_use]
    pub const fn taken(&self) -> usize {
        self.state.taken
    }

    /// Whether a message has started and not yet ended.
    #[must_use]
    pub const fn is_open(&self) -> bool {
        self.state.inside
    }

    /// Whether the end was declared.
    #[must_use]
    pub const fn is_over(&self) -> bool {
        self.state.over
    }

    /// The first bytes of the message that is open, of which a refusal may speak; none where no message
    /// is open.
    fn opening(&self) -> impl Iterator<Item = u8> {
        let [maker, device, opcode, first, second, third, ..] = self.state.bytes;
        let known = if self.is_open() {
            1 + self.state.count
        } else {
            0
        };
        let opening = [0xF0, maker, device, opcode, first, second, third];
        opening.into_iter().take(known)
    }

    /// What a call told, with the message's own bytes; none where it told of no message.
    fn found(&self, reading: ffi::Reading, message: impl IntoIterator<Item = u8>) -> Option<Found> {
        let ffi::Reading { report, bytes } = reading;
        let packed = self.state.bytes.first_chunk();
        let packed = packed.expect("a message is longer than what it packs");
        Report::new(report, message).map(|report| Found::new(report, bytes, packed))
    }
}

/// A fresh start.
impl Default for Reader {
    fn default() -> Self {
        Self::new()
    }
}

impl fmt::Debug for Reader {
    fn fmt(&self, f: &mut fmt::Formatter<'_>) -> fmt::Result {
        f.debug_struct("Reader")
            .field("taken", &self.taken())
            .field("open", &self.is_open())
            .field("over", &self.is_over())
            .field("packed", &self.packed())
            .finish_non_exhaustive()
    }
}

/// The messages that come in from a port, a pipe, a file or anything else that is read, accepted and
/// refused, each as soon as it has ended.
///
/// They are those that [`messages`](crate::messages) finds in all that is read, one that is open at the
/// end of it included. Up to 4 KiB are read at once, into a buffer of the iterator's own.
///
/// An error of the input is passed on, but for reads that were interrupted, which are tried again. No
/// byte is lost by it: who asks for the next message goes on where the input failed. More bytes than
/// [`Reader::LONGEST`] are an error too, [`Error::TooMany`] inside it, and behind that nothing comes.
///
/// ```
/// use matrix1000::{incoming, Error, Message, Patch};
///
/// // What is read here stands for a port.
/// let mut port = Message::from((7, Patch::default())).to_vec()?;
/// port.push(0xF0);
/// let mut found = incoming(port.as_slice());
/// let first = found.next().unwrap()?;
/// assert_eq!(first.message, Ok(Message::from((7, Patch::default()))));
/// let second = found.next().unwrap()?;
/// assert_eq!((second.range(), second.message), (275..276, Err(Error::Cut)));
/// assert!(found.next().is_none());
/// # Ok::<(), std::io::Error>(())
/// ```
pub fn incoming<R: io::Read>(input: R) -> Incoming<R> {
    Incoming {
        input: BufReader::with_capacity(BUFFER, input),
        reader: Reader::new(),
    }
}

/// How many bytes are read at once.
const BUFFER: usize = 4096;

/// An iterator over the messages that come in. Made by [`incoming`].
#[derive(Debug)]
#[must_use = "iterators are lazy"]
pub struct Incoming<R> {
    input: BufReader<R>,
    reader: Reader,
}

impl<R> Incoming<R> {
    /// The reader that is fed: how many bytes it took, and whether a message is open.
    #[must_use]
    pub const fn reader(&self) -> &Reader {
        &self.reader
    }
}

impl<R: io::Read> Iterator for Incoming<R> {
    type Item = io::Result<Found>;

    fn next(&mut self) -> Option<io::Result<Found>> {
        while !self.reader.is_over() {
            let arrived = match self.input.fill_buf() {
                Ok([]) => return self.reader.end().map(Ok),
                Ok(arrived) => arrived,
                Err(error) if error.kind() == io::ErrorKind::Interrupted => continue,
                Err(error) => return Some(Err(error)),
            };
            match self.reader.feed(arrived) {
                Ok(fed) => {
                    self.input.consume(fed.taken);
                    if let Some(found) = fed.found {
                        return Some(Ok(found));
                    }
                }
                Err(error) => {
                    self.reader.end();
                    return Some(Err(error.into()));
                }
            }
        }
        None
    }
}

// The end is declared once, and nothing is read behind it.
impl<R: io::Read> FusedIterator for Incoming<R> {}

#[cfg(test)]
mod tests {
    use super::*;

    /// A reader that has taken this many bytes.
    fn taken(taken: usize) -> Reader {
        let mut reader = Reader::new();
        reader.state.taken = taken;
        reader
    }

    #[test]
    fn no_more_than_the_longest_stream_is_taken() {
        let mut reader = taken(Reader::LONGEST - 1);
        let refused = reader.feed(&[0xF0, 0xF7]).unwrap_err();
        assert_eq!(
            (refused.number(), refused.detail(), refused.value()),
            (21, 0, 0)
        );
        assert_eq!(
            refused.to_string(),
            "a stream has at most 4294967295 bytes: 2 behind the 4294967294 taken are too many"
        );
        assert_eq!((reader.taken(), reader.is_open()), (4_294_967_294, false));
        let fed = reader.feed(&[0xF0]).unwrap();
        assert_eq!((fed.taken, fed.found), (1, None));
        assert_eq!(reader.feed(&[]).unwrap().taken, 0);
        assert_eq!(reader.feed(&[0xF7]).unwrap_err().number(), 21);
        let cut = reader.end().unwrap();
        assert_eq!(cut.range(), 4_294_967_294..4_294_967_295);
        assert_eq!(reader.feed(&[0xF7]), Err(Error::NoMessage));
    }

    #[test]
    fn a_refused_feed_keeps_the_packed_bytes() {
        let patch = crate::Patch::default();
        let dump = crate::Message::EditBuffer(patch).to_vec().unwrap();
        let mut reader = taken(Reader::LONGEST - dump.len());
        assert!(reader.feed(&dump).unwrap().found.is_some());
        assert_eq!(reader.feed(&[0]).unwrap_err().number(), 21);
        assert_eq!(reader.packed(), patch.as_bytes());
    }

    #[test]
    fn too_much_comes_in() {
        let mut found = incoming(&[0xF0, 0xF7, 0xF0][..]);
        found.reader = taken(Reader::LONGEST - 2);
        let error = found.next().unwrap().unwrap_err();
        let inside = error.get_ref().and_then(|error| error.downcast_ref());
        assert_eq!(inside.map(Error::number), Some(21));
        assert!(found.next().is_none());
    }
}

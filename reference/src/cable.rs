//! Reading straight from the cable: a reader that is fed what has arrived so far.

use std::mem;

use crate::answers::{
    Outcome, Refusal, Report, CUT, DONE, INTERRUPTED, NO_MESSAGE, STREAM_TOO_LONG,
};
use crate::frames::{inside, next_frame, Ending, Inside, END};
use crate::kinds::length;
use crate::records::{drop_real_time, parse, Record};

/// The cable reader takes at most this many bytes.
pub const LONGEST_STREAM: usize = 4_294_967_295;

/// Room for the longest message.
const ROOM: usize = length::MASTER;

/// What a call of the cable reader says.
#[derive(Clone, Copy, Debug, PartialEq, Eq)]
#[must_use]
pub struct Fed {
    /// How many of the bytes fed were taken.
    pub taken: usize,
    /// Whether a message ended.
    pub ended: bool,
    /// The report of the message that ended, with places from the first byte taken. Where none did,
    /// the answer 1 or 21 with its places; all zeros for a feed that is done.
    pub report: Report,
    /// The number of a patch or a split, or the bytes of an edit or an operation, as received; zero
    /// elsewhere.
    pub bytes: [u8; 4],
}

/// A message that has started and not yet ended.
#[derive(Clone, Copy, Debug, PartialEq, Eq)]
pub struct Open<'a> {
    /// The place of its F0H.
    pub start: usize,
    /// How many bytes F8H..FFH it has so far.
    pub noise: usize,
    /// The bytes behind the F0H so far, real time dropped, the first 351 at most.
    pub content: &'a [u8],
}

/// Reads a stream fed in pieces of any length. Its reports and records are those of the whole.
#[derive(Clone, Debug)]
pub struct CableReader {
    taken: usize,
    state: State,
    held: [u8; ROOM],
}

/// Where the reader stands, and how many of the bytes that it holds count.
#[derive(Clone, Copy, Debug)]
enum State {
    /// Outside a message. Behind a dump's report its packed bytes are held.
    Outside { packed: usize },
    /// Inside a message, of which the data bytes are held.
    Inside(Message),
    /// The end was declared.
    Over,
}

/// An open message: the place of its F0H, its real time so far, and how many bytes are held.
#[derive(Clone, Copy, Debug)]
struct Message {
    start: usize,
    noise: usize,
    held: usize,
}

impl Message {
    /// Holds a data byte if there is room.
    #[inline]
    fn hold_byte(&mut self, held: &mut [u8; ROOM], byte: u8) {
        if let Some(room) = held.get_mut(self.held) {
            *room = byte;
            self.held += 1;
        }
    }

    /// Holds the data bytes among these as far as there is room, and counts the real time.
    #[inline]
    fn hold(&mut self, held: &mut [u8; ROOM], bytes: &[u8], noise: usize) {
        let room = &mut held[self.held..];
        self.held += if noise == 0 {
            let kept = bytes.len().min(room.len());
            room[..kept].copy_from_slice(&bytes[..kept]);
            kept
        } else {
            drop_real_time(bytes, room)
        };
        self.noise += noise;
    }
}

impl CableReader {
    /// A fresh start.
    #[must_use]
    pub const fn new() -> Self {
        Self::with_taken(0)
    }

    /// A reader outside a message that has taken this many bytes.
    #[must_use]
    pub const fn with_taken(taken: usize) -> Self {
        Self {
            taken,
            state: State::Outside { packed: 0 },
            held: [0; ROOM],
        }
    }

    /// Takes bytes up to the end of the next message, or all if none ends. What isn't taken is to
    /// be fed again. Refused with 1 after the end, with 21 if the stream grows too long; nothing
    /// changes then.
    #[inline]
    pub fn feed(&mut self, bytes: &[u8]) -> Fed {
        if self.is_over() {
            return Fed::without_message(NO_MESSAGE, self.taken);
        }
        if self.is_too_much(bytes) {
            return Fed::without_message(STREAM_TOO_LONG, 0);
        }
        match (&mut self.state, bytes) {
            // Data alone is the usual feed of a program that reads a byte or a few at a time.
            (State::Inside(message), &[byte @ 0..0x80]) => {
                message.hold_byte(&mut self.held, byte);
                self.take_all(bytes)
            }
            (State::Inside(message), _) if bytes.is_ascii() => {
                message.hold(&mut self.held, bytes, 0);
                self.take_all(bytes)
            }
            (&mut State::Inside(message), _) => self.go_on(message, bytes),
            _ => self.find_message(bytes),
        }
    }

    /// Declares the end: 2 for a message still open, else 1. Declared again it changes nothing.
    pub fn end(&mut self) -> Fed {
        match mem::replace(&mut self.state, State::Over) {
            State::Inside(message) => self.report(message, 0, Err(Refusal::plain(CUT))),
            State::Outside { .. } | State::Over => Fed::without_message(NO_MESSAGE, self.taken),
        }
    }

    /// The packed bytes of the dump that the last call reported; none if it reported no dump. A
    /// refused call changes nothing.
    #[inline]
    #[must_use]
    pub fn packed(&self) -> &[u8] {
        match self.state {
            State::Outside { packed } => &self.held[..packed],
            State::Inside(_) | State::Over => &[],
        }
    }

    /// How many bytes were taken so far.
    #[must_use]
    pub const fn taken(&self) -> usize {
        self.taken
    }

    /// Whether the end was declared.
    #[must_use]
    pub const fn is_over(&self) -> bool {
        matches!(self.state, State::Over)
    }

    /// The message that is open, if one is.
    #[must_use]
    pub fn open(&self) -> Option<Open<'_>> {
        let State::Inside(message) = self.state else {
            return None;
        };
        Some(Open {
            start: message.start,
            noise: message.noise,
            content: &self.held[..message.held],
        })
    }

    /// Whether a feed makes the stream too long.
    fn is_too_much(&self, bytes: &[u8]) -> bool {
        let total = self.taken.checked_add(bytes.len());
        total.is_none_or(|total| total > LONGEST_STREAM)
    }

    /// Outside a message. One that ends in the feed is judged from it.
    #[inline]
    fn find_message(&mut self, bytes: &[u8]) -> Fed {
        self.state = State::Outside { packed: 0 };
        let Some(frame) = next_frame(bytes, 0) else {
            return self.take_all(bytes);
        };
        let mut message = Message {
            start: self.taken + frame.start,
            noise: 0,
            held: 0,
        };
        if let Ending::Cut = frame.ending {
            message.hold(&mut self.held, &bytes[frame.start + 1..], frame.noise);
            self.state = State::Inside(message);
            return self.take_all(bytes);
        }
        message.noise = frame.noise;
        self.taken += frame.end;
        self.report(message, frame.end, Record::of(frame.ending, frame.noise))
    }

    /// Inside a message.
    #[inline]
    fn go_on(&mut self, mut message: Message, rest: &[u8]) -> Fed {
        let Inside {
            bytes,
            noise,
            status,
        } = inside(rest);
        let (taken, judged) = match status {
            Some(END) => {
                message.hold(&mut self.held, bytes, noise);
                (bytes.len() + 1, parse(&self.held[..message.held]))
            }
            // The byte that interrupts is not taken.
            Some(_) => {
                message.noise += noise;
                (bytes.len(), Err(Refusal::plain(INTERRUPTED)))
            }
            None => {
                message.hold(&mut self.held, bytes, noise);
                self.state = State::Inside(message);
                return self.take_all(rest);
            }
        };
        self.state = State::Outside { packed: 0 };
        self.taken += taken;
        self.report(message, taken, judged)
    }

    /// No message ended.
    #[inline]
    fn take_all(&mut self, bytes: &[u8]) -> Fed {
        self.taken += bytes.len();
        Fed {
            taken: bytes.len(),
            ..Fed::without_message(DONE, 0)
        }
    }

    /// The report of a message that ends behind the last byte taken. A dump's packed bytes are held
    /// from now on.
    #[inline]
    fn report(&mut self, message: Message, taken: usize, judged: Result<Record, Refusal>) -> Fed {
        let mut bytes = [0; 4];
        if let Ok(record) = &judged {
            let packed = record.packed();
            self.held[..packed.len()].copy_from_slice(packed);
            self.state = State::Outside {
                packed: packed.len(),
            };
            bytes = record.bytes();
        }
        let Outcome {
            answer,
            detail,
            value,
        } = judged.map(|record| usize::from(record.opcode())).into();
        Fed {
            taken,
            ended: true,
            report: Report {
                start: message.start,
                end: self.taken,
                answer,
                detail,
                value,
                noise: message.noise,
            },
            bytes,
        }
    }
}

impl Default for CableReader {
    fn default() -> Self {
        Self::new()
    }
}

impl Fed {
    /// No message ended and no byte was taken.
    const fn without_message(answer: u8, place: usize) -> Self {
        Self {
            taken: 0,
            ended: false,
            report: Report {
                start: place,
                end: place,
                answer,
                detail: 0,
                value: 0,
                noise: 0,
            },
            bytes: [0; 4],
        }
    }
}

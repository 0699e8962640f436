//! Short streams straight from the cable, cut at every place or in every way. Both programs tell and
//! leave the same call by call, and what is told of the messages, with their places, is what the
//! library's own file walk tells.

use std::collections::BTreeMap;
use std::iter;

use compare::ffi::{self, A_CALL};
use reference::answers::NO_MESSAGE;
use reference::kinds::MASTER_LENGTH;
use reference::streams::cuts::{cable_stream_of, STREAMS};
use reference::streams::{stream, Random, CYCLE};
use reference::{PATCH_LENGTH, SPLIT_LENGTH};

use crate::cable::Both;
use crate::lent::hex;

/// Streams, the ways in which each is cut, and what is to be met in them.
struct Set {
    name: &'static str,
    streams: fn() -> Vec<Vec<u8>>,
    /// The lengths of the pieces of a stream of this length, for each way.
    ways: fn(usize) -> Vec<Vec<usize>>,
    met: &'static [Met],
}

/// An answer, and with 0 the opcode.
type Met = (u8, usize);

static SETS: [Set; 2] = [
    Set {
        name: "short streams cut at every place",
        streams: short,
        ways: at_every_place,
        met: &[
            (0, 0x01),
            (0, 0x02),
            (0, 0x03),
            (0, 0x04),
            (0, 0x06),
            (0, 0x07),
            (0, 0x0A),
            (0, 0x0B),
            (0, 0x0C),
            (0, 0x0D),
            (0, 0x0E),
            (2, 0),
            (3, 0),
            (4, 0),
            (5, 0),
            (6, 0),
            (7, 0),
            (8, 0),
            (9, 0),
            (10, 0),
            (11, 0),
            (12, 0),
        ],
    },
    Set {
        name: "streams of at most five bytes cut in every way",
        streams: tiny,
        ways: in_every_way,
        met: &[(2, 0), (3, 0), (4, 0), (5, 0)],
    },
];

/// The most bytes of a short stream.
const SHORT: usize = 800;

/// The short ones of a cycle of seeds, and the start of one of each kind for the cable.
fn short() -> Vec<Vec<u8>> {
    let seeds = (0..CYCLE).map(stream);
    let mut streams: Vec<_> = seeds.filter(|stream| stream.len() <= SHORT).collect();
    let mut random = Random::new(0);
    for kind in 0..STREAMS {
        let mut stream = cable_stream_of(&mut random, kind);
        stream.truncate(SHORT);
        streams.push(stream);
    }
    streams
}

/// All streams of at most five of these bytes: data, status bytes, real time.
fn tiny() -> Vec<Vec<u8>> {
    const BYTES: [u8; 6] = [0x00, 0x10, 0x90, 0xF0, 0xF7, 0xF8];
    let mut streams = vec![Vec::new()];
    let mut shorter = 0;
    for _ in 0..5 {
        let longest = streams[shorter..].to_vec();
        shorter = streams.len();
        for stream in &longest {
            streams.extend(BYTES.map(|byte| [stream.as_slice(), &[byte]].concat()));
        }
    }
    streams
}

/// Two pieces, of which either may be empty, cut at every place; then a byte at a time.
fn at_every_place(length: usize) -> Vec<Vec<usize>> {
    let two = (0..=length).map(|at| vec![at, length - at]);
    two.chain(iter::once(vec![1; length])).collect()
}

/// A cut behind each byte or none.
fn in_every_way(length: usize) -> Vec<Vec<usize>> {
    let ways = (0..1 << length).map(|cuts: usize| {
        let mut pieces = vec![0];
        for place in 0..length {
            *pieces.last_mut().expect("a piece") += 1;
            if cuts >> place & 1 == 1 {
                pieces.push(0);
            }
        }
        pieces
    });
    ways.collect()
}

/// Compares all sets; whether all held.
pub fn run() -> bool {
    SETS.iter().all(compare_set)
}

fn compare_set(set: &Set) -> bool {
    let Set { name, .. } = set;
    let streams = (set.streams)();
    let mut met = BTreeMap::<Met, usize>::new();
    let (mut ways, mut calls) = (0, 0);
    for stream in &streams {
        let Some(walked) = walked(stream) else {
            return false;
        };
        for pieces in (set.ways)(stream.len()) {
            let mut both = Both::fresh();
            let told = told(&mut both, stream, &pieces);
            if told.as_ref() != Some(&walked) {
                println!("cable, {name}: {} in pieces of {pieces:?}", hex(stream));
                println!("  told from the cable {told:?}");
                println!("  told by the file walk {walked:?}");
                return false;
            }
            ways += 1;
            calls += both.calls;
            for message in &walked {
                *met.entry(message.met()).or_default() += 1;
            }
        }
    }
    if let Some(missing) = set.met.iter().find(|kind| !met.contains_key(kind)) {
        println!("cable, {name}: nothing was compared that is answered {missing:?}");
        return false;
    }
    let messages: usize = met.values().sum();
    println!(
        "cable, {name}: {} streams in {ways} ways the same, {calls} calls; {messages} reports and records as the file walk's",
        streams.len()
    );
    true
}

/// What is told of a message: its report with the bytes that come with it, and a dump's packed bytes.
#[derive(Debug, PartialEq, Eq)]
struct Message {
    reading: ffi::Reading,
    packed: Vec<u8>,
}

impl Message {
    /// With the packed bytes from the start of a buffer.
    fn new(reading: ffi::Reading, buffer: &[u8]) -> Self {
        let mut message = Self {
            reading,
            packed: Vec::new(),
        };
        let size = match message.met() {
            (0, 0x01 | 0x0D) => PATCH_LENGTH,
            (0, 0x02) => SPLIT_LENGTH,
            (0, 0x03) => MASTER_LENGTH,
            _ => 0,
        };
        message.packed.extend_from_slice(&buffer[..size]);
        message
    }

    fn met(&self) -> Met {
        match self.reading.report.outcome {
            ffi::Outcome {
                answer: 0, detail, ..
            } => (0, detail),
            ffi::Outcome { answer, .. } => (answer, 0),
        }
    }
}

/// What is told of a stream from the cable, in pieces of these lengths. None and a print where the
/// programs differ.
fn told(both: &mut Both, stream: &[u8], lengths: &[usize]) -> Option<Vec<Message>> {
    let mut left = stream;
    let pieces = lengths.iter().map(|&length| {
        let (piece, behind) = left.split_at(length);
        left = behind;
        piece
    });
    let mut messages = Vec::new();
    both.feed_all(pieces, |reading, record| {
        messages.push(Message::new(reading, &record.bytes));
    })?;
    assert!(left.is_empty(), "the pieces are all of the stream");
    Some(messages)
}

/// What the library's own file walk tells: its records, whose reports are those that it lists. None
/// and a print where they are not.
fn walked(stream: &[u8]) -> Option<Vec<Message>> {
    let (mut messages, mut place) = (Vec::new(), 0);
    loop {
        let mut buffer = [0; MASTER_LENGTH];
        let reading = ffi::read(stream, place, &mut buffer);
        if reading.report.outcome.answer == NO_MESSAGE {
            break;
        }
        place = reading.report.end;
        messages.push(Message::new(reading, &buffer));
    }
    let read: Vec<_> = messages
        .iter()
        .map(|message| message.reading.report)
        .collect();
    let listed = listed(stream);
    if read != listed {
        println!("{}: read {read:?}, listed {listed:?}", hex(stream));
        return None;
    }
    Some(messages)
}

fn listed(stream: &[u8]) -> Vec<ffi::Report> {
    let mut room = [ffi::EMPTY; A_CALL];
    let (mut reports, mut place) = (Vec::new(), 0);
    loop {
        let made = ffi::reports(stream, place, room.as_flattened_mut());
        reports.extend(
            room[..made.count]
                .iter()
                .map(|&flat| ffi::Report::from(flat)),
        );
        if made.count == 0 {
            return reports;
        }
        place = made.next;
    }
}

//! Inputs for readers straight from the cable: streams cut in all ways, ends declared anywhere, feeds
//! around the limit, and records that no call leaves.

use compare::ffi::Cable;
use reference::answers::STREAM_TOO_LONG;
use reference::streams::cuts::{self, cable_stream, cable_stream_of, cuts_of, next_feed};
use reference::streams::Random;
use reference::{CableReader, LONGEST_STREAM};

use crate::cable::{record_of, Deed, Run};
use crate::calls::{self, around};
use crate::lent::{Call, Fill, Lent};

/// So many of each kind of stream, with each kind of cutting.
pub const KINDS: usize = TIMES * cuts::STREAMS * cuts::KINDS;
const TIMES: usize = 4;

/// A stream is fed in so many calls at most. What is left is not fed.
const MOST_FEEDS: usize = 2_000;
/// So many feeds of a stream are refused by 21 at most.
const MOST_REFUSED: usize = 8;

pub fn feed(random: &mut Random) -> Call {
    let stream = cable_stream(random);
    cut(random, CableReader::new(), &stream)
}

pub fn feed_noisy(random: &mut Random) -> Call {
    let stream = calls::noisy_stream(random);
    cut(random, CableReader::new(), &stream)
}

pub fn feed_kind(random: &mut Random, index: usize) -> Call {
    let kind = index / TIMES;
    let stream = cable_stream_of(random, kind / cuts::KINDS);
    let cuts = cuts_of(random, kind % cuts::KINDS, stream.len());
    fed(random, CableReader::new(), &stream, &cuts, false)
}

pub fn feed_near_limit(random: &mut Random) -> Call {
    let stream = cable_stream(random);
    let reader = near_limit(random, stream.len());
    cut(random, reader, &stream)
}

pub fn end(random: &mut Random) -> Call {
    let stream = cable_stream(random);
    cut_short(random, CableReader::new(), &stream)
}

pub fn end_noisy(random: &mut Random) -> Call {
    let stream = calls::noisy_stream(random);
    cut_short(random, CableReader::new(), &stream)
}

pub fn end_near_limit(random: &mut Random) -> Call {
    let stream = cable_stream(random);
    let reader = near_limit(random, stream.len());
    cut_short(random, reader, &stream)
}

/// A record that no call leaves, so far as the second program knows what is to come of it.
pub fn feed_strange(random: &mut Random) -> Call {
    match random.below(4) {
        0 => over(random),
        1 => too_much(random),
        2 => at_rest(random, cut),
        _ => long_open(random, cut),
    }
}

pub fn end_strange(random: &mut Random) -> Call {
    match random.below(3) {
        0 => over(random),
        1 => at_rest(random, end_at_once),
        _ => long_open(random, end_at_once),
    }
}

/// Lends a stream to a reader, with what is done.
type Way = fn(&mut Random, CableReader, &[u8]) -> Call;

/// Any record that is over: nothing changes it.
fn over(random: &mut Random) -> Call {
    let stream = cable_stream(random);
    let record = Cable {
        over: true,
        ..Cable::fill(random)
    };
    let mut reader = CableReader::with_taken(record.taken);
    let _ = reader.end();
    let deeds = behind_the_end(random);
    let call = lent(random, reader, &stream, deeds);
    with_record(random, call, record)
}

/// Any record, and feeds that are too much for it: nothing changes it.
fn too_much(random: &mut Random) -> Call {
    let mut stream = cable_stream(random);
    stream.push(random.byte());
    let least = random.within(1..=stream.len());
    let mut record = Cable {
        over: false,
        ..Cable::fill(random)
    };
    if record.taken <= LONGEST_STREAM {
        record.taken = LONGEST_STREAM + 1 - least;
    }
    let reader = CableReader::with_taken(record.taken);
    let sizes = (0..random.within(1..=3)).map(|_| random.within(least..=stream.len()));
    let deeds = sizes.map(Deed::Feed).collect();
    let call = lent(random, reader, &stream, deeds);
    with_record(random, call, record)
}

/// No message open, and anything in the room, in its count, and in what is said of an open message.
fn at_rest(random: &mut Random, way: Way) -> Call {
    let stream = cable_stream(random);
    let record = Cable {
        inside: false,
        over: false,
        ..Cable::fill(random)
    };
    let reader = CableReader::with_taken(record.taken);
    let call = way(random, reader, &stream);
    with_record(random, call, record)
}

/// A message open that is longer than the room, with a count above that of the room.
fn long_open(random: &mut Random, way: Way) -> Call {
    let mut reader = CableReader::new();
    let before = random.within(351..=800);
    let _ = reader.feed(&[0xF0]);
    let _ = reader.feed(&vec![random.byte_within(0..=127); before]);
    let more = random.below(400);
    let mut stream = vec![random.byte_within(0..=127); more];
    stream.push(random.pick(&[0xF7, 0xF7, 0xF0, 0x90]));
    stream.extend(cable_stream(random));
    let record = Cable {
        count: random.pick(&[352, 353, 1 << 32, usize::MAX]),
        ..record_of(&reader)
    };
    let call = way(random, reader, &stream);
    with_record(random, call, record)
}

/// A reader that has taken about as many bytes as it may before a stream of this length, or more.
fn near_limit(random: &mut Random, length: usize) -> CableReader {
    CableReader::with_taken(match random.below(8) {
        0 => LONGEST_STREAM + random.within(1..=3),
        1 => usize::MAX - random.below(2),
        2 => LONGEST_STREAM - random.below(3),
        3 => LONGEST_STREAM - random.below(length + 1),
        _ => LONGEST_STREAM - around(random, length),
    })
}

/// A stream fed to a reader, cut in any way. The end is declared behind it, or at times earlier.
fn cut(random: &mut Random, reader: CableReader, stream: &[u8]) -> Call {
    let early = random.one_in(4);
    let cuts = cuts::cuts(random, stream.len());
    fed(random, reader, stream, &cuts, early)
}

/// The same with the end declared anywhere.
fn cut_short(random: &mut Random, reader: CableReader, stream: &[u8]) -> Call {
    let cuts = cuts::cuts(random, stream.len());
    fed(random, reader, stream, &cuts, true)
}

fn fed(
    random: &mut Random,
    reader: CableReader,
    stream: &[u8],
    cuts: &[usize],
    early: bool,
) -> Call {
    let mut deeds = feeds(random, reader.clone(), stream, cuts);
    if early {
        deeds.truncate(random.below(deeds.len() + 1));
    }
    let deeds = ended(random, deeds);
    lent(random, reader, stream, deeds)
}

/// The end before any feed.
fn end_at_once(random: &mut Random, reader: CableReader, stream: &[u8]) -> Call {
    let deeds = ended(random, Vec::new());
    lent(random, reader, stream, deeds)
}

/// A stream fed as it is cut. Behind a feed that is refused by 21 comes one of about the bytes that
/// may still be taken.
fn feeds(random: &mut Random, mut reader: CableReader, stream: &[u8], cuts: &[usize]) -> Vec<Deed> {
    let mut deeds = Vec::new();
    let mut left = stream;
    let mut refused = 0;
    while let Some(cut) = next_feed(cuts, deeds.len(), left.len()) {
        let most = LONGEST_STREAM.saturating_sub(reader.taken());
        let size = match refused {
            0 => cut,
            _ => random.pick(&[0, most / 2, most.saturating_sub(1), most, most + 1]),
        };
        let deed = Deed::Feed(size.min(left.len()));
        let fed = reader.feed(deed.feeds(left).expect("a feed"));
        deeds.push(deed);
        left = &left[fed.taken..];
        refused += usize::from(fed.report.answer == STREAM_TOO_LONG);
        if deeds.len() == MOST_FEEDS || refused == MOST_REFUSED {
            break;
        }
    }
    deeds
}

/// Then the end, and calls behind it.
fn ended(random: &mut Random, mut deeds: Vec<Deed>) -> Vec<Deed> {
    deeds.push(Deed::End);
    deeds.extend(behind_the_end(random));
    deeds
}

fn behind_the_end(random: &mut Random) -> Vec<Deed> {
    let calls = (0..random.within(1..=4)).map(|_| match random.below(4) {
        0 => Deed::Feed(0),
        1 => Deed::Feed(1),
        2 => Deed::Feed(random.below(400)),
        _ => Deed::End,
    });
    calls.collect()
}

/// The calls of a run that do such a thing, each by itself with the record before it; so many at most.
pub fn single(call: &Call, such: fn(Deed) -> bool, most: usize) -> Vec<Call> {
    let run = call.run.as_ref().expect("a run");
    let mut random = Random::new(0);
    let mut reader = run.reader.clone();
    let mut left = call.first.get();
    let mut calls = Vec::new();
    for &deed in &run.deeds {
        let bytes = deed.feeds(left);
        if such(deed) && calls.len() < most {
            let fed = bytes.unwrap_or_default();
            calls.push(lent(&mut random, reader.clone(), fed, vec![deed]));
        }
        let taken = match bytes {
            Some(bytes) => reader.feed(bytes).taken,
            None => reader.end().taken,
        };
        left = &left[taken..];
    }
    calls
}

/// Lends a stream, and the record of a reader.
pub fn lent(random: &mut Random, reader: CableReader, stream: &[u8], deeds: Vec<Deed>) -> Call {
    let record = Lent::new(random, &[record_of(&reader)]);
    Call {
        first: Lent::new(random, stream),
        run: Some(Box::new(Run::new(record, reader, deeds))),
        ..calls::call(random)
    }
}

/// Lends another record.
fn with_record(random: &mut Random, mut call: Call, record: Cable) -> Call {
    let run = call.run.as_mut().expect("a run");
    run.record = Lent::new(random, &[record]);
    call
}

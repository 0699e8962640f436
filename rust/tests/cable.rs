//! Straight from the cable: however a stream is cut, what is found is what stands in the file.

use std::collections::VecDeque;
use std::io::{self, Read};
use std::ops::Range;
use std::path::Path;
use std::{cmp, fs};

use matrix1000::{incoming, messages, reports, Error, Found, Kind, Message, Patch, Reader};

/// The second program's vectors, and all of them as one stream.
fn streams() -> Vec<Vec<u8>> {
    let folder = Path::new(env!("CARGO_MANIFEST_DIR")).join("../reference/vectors");
    let paths = fs::read_dir(folder)
        .unwrap()
        .map(|entry| entry.unwrap().path());
    let vectors = paths.filter(|path| path.extension().is_some_and(|extension| extension == "syx"));
    let mut streams: Vec<_> = vectors.map(|path| fs::read(path).unwrap()).collect();
    assert!(streams.len() > 10, "the vectors are there");
    streams.push(streams.concat());
    streams
}

/// The packed bytes of a dump that is accepted.
fn packed(found: Option<&Found>) -> &[u8] {
    match found.map(|found| &found.message) {
        Some(Ok(Message::Master(master))) => master.as_bytes(),
        Some(Ok(Message::Split { split, .. })) => split.as_bytes(),
        Some(Ok(message)) => message.patch().map_or(&[], |patch| patch.as_bytes()),
        _ => &[],
    }
}

/// Feeds once, and gives what is left to be fed again.
fn feed<'a>(reader: &mut Reader, arrived: &'a [u8], ended: &mut Vec<Found>) -> &'a [u8] {
    let before = reader.taken();
    let fed = reader.feed(arrived).unwrap();
    assert!(fed.taken > 0 || fed.found.is_some() || arrived.is_empty());
    assert!(fed.taken == arrived.len() || fed.found.is_some());
    assert_eq!(reader.taken(), before + fed.taken);
    assert_eq!(reader.packed(), packed(fed.found.as_ref()));
    ended.extend(fed.found);
    &arrived[fed.taken..]
}

/// The messages of a stream in pieces. What is not taken is fed again before more arrives.
fn in_pieces(stream: &[u8], mut length: impl FnMut() -> usize) -> Vec<Found> {
    let (mut reader, mut ended) = (Reader::new(), Vec::new());
    let mut left = stream;
    while !left.is_empty() {
        let (mut arrived, later) = left.split_at(cmp::min(length(), left.len()));
        while !arrived.is_empty() {
            arrived = feed(&mut reader, arrived, &mut ended);
        }
        left = later;
    }
    ended.extend(reader.end());
    ended
}

/// The same, what is not taken being fed again with what has arrived behind it.
fn with_more_behind(stream: &[u8], mut length: impl FnMut() -> usize) -> Vec<Found> {
    let (mut reader, mut ended) = (Reader::new(), Vec::new());
    let mut left = stream;
    let mut arrived = 0;
    while !left.is_empty() {
        arrived = cmp::min(arrived + length(), left.len());
        let kept = feed(&mut reader, &left[..arrived], &mut ended).len();
        left = &left[arrived - kept..];
        arrived = kept;
    }
    ended.extend(reader.end());
    ended
}

/// Numbers from 0 to below a bound, the same in every run.
fn numbers(seed: u64, bound: usize) -> impl FnMut() -> usize {
    let mut state = seed;
    move || {
        state ^= state << 13;
        state ^= state >> 7;
        state ^= state << 17;
        usize::try_from(state >> 33).unwrap() % bound
    }
}

/// A message as `reports` has it.
fn told(found: &Found) -> (Range<usize>, Result<Kind, Error>, usize) {
    let kind = found.message.map(|message| message.kind());
    (found.range(), kind, found.noise)
}

#[test]
fn what_is_found_is_what_the_file_has() {
    for stream in streams() {
        let expected: Vec<_> = messages(&stream).collect();
        let listed = reports(&stream).map(|report| (report.range(), report.kind, report.noise));
        assert!(expected.iter().map(told).eq(listed));
        for length in (1..20).chain([64, 274, 275, 276, 351, 352, 4096, usize::MAX >> 1]) {
            assert_eq!(in_pieces(&stream, || length), expected);
            assert_eq!(with_more_behind(&stream, || length), expected);
        }
        for seed in 1..9 {
            for bound in [2, 3, 30, 500, 5000] {
                assert_eq!(in_pieces(&stream, numbers(seed, bound)), expected);
                assert_eq!(with_more_behind(&stream, numbers(seed, bound)), expected);
            }
        }
    }
}

#[test]
fn every_cut_in_two() {
    for stream in streams().into_iter().filter(|stream| stream.len() < 3000) {
        let expected: Vec<_> = messages(&stream).collect();
        for first in 0..stream.len() {
            let mut lengths = [first, stream.len()].into_iter();
            assert_eq!(in_pieces(&stream, || lengths.next().unwrap()), expected);
        }
    }
}

/// Refusals speak of bytes that came with earlier feeds.
#[test]
fn what_refusals_speak_of() {
    let short = [0xF0, 0x10, 0xFE, 0x06, 0x0B, 0x09, 0xFE, 0xF7];
    let parameter = [0xF0, 0x10, 0x06, 0xF8, 0x06, 0x27, 0x00, 0xF7];
    let sentences = [
        (short, "a matrix modulation edit message has 9 bytes, not 6"),
        (parameter, "parameter 39 is not one of the 96 of a patch"),
    ];
    for (message, sentence) in sentences {
        for length in 1..9 {
            let found = in_pieces(&message, || length);
            assert_eq!(found[0].message.unwrap_err().to_string(), sentence);
        }
    }
    let mut long = vec![0; 1000];
    long[..4].copy_from_slice(&[0xF0, 0x10, 0x06, 0x01]);
    long.push(0xF7);
    for length in [1, 2, 3, 4, 5, 999, 1001] {
        let error = in_pieces(&long, || length)[0].message.unwrap_err();
        let sentence = "a single patch message has 275 bytes, not 1001";
        assert_eq!(error.to_string(), sentence);
    }
}

#[test]
fn packed_bytes_stand_until_the_next_call() {
    let patch = Patch::default();
    let dump = Message::EditBuffer(patch).to_vec().unwrap();
    let mut reader = Reader::default();
    assert_eq!(reader.packed(), []);
    reader.feed(&dump[..200]).unwrap();
    assert!(reader.is_open());
    assert_eq!(reader.packed(), []);
    // An empty feed leaves an open message as it is.
    assert_eq!(reader.feed(&[]).unwrap().found, None);
    let found = reader.feed(&dump[200..]).unwrap().found.unwrap();
    assert_eq!(
        (found.range(), found.message),
        (0..275, Ok(Message::EditBuffer(patch)))
    );
    assert_eq!(
        (reader.packed(), reader.is_open()),
        (&patch.as_bytes()[..], false)
    );
    for next in [&[][..], &[0xF0], &[0x40], &[0xF0, 0xF7]] {
        let mut reader = reader.clone();
        reader.feed(next).unwrap();
        assert_eq!(reader.packed(), []);
    }
    assert_eq!(reader.end(), None);
    assert_eq!(reader.packed(), []);
}

#[test]
fn after_the_end() {
    let mut reader = Reader::new();
    assert_eq!(reader.feed(&[0x41, 0xF0, 0xFE]).unwrap().found, None);
    let cut = reader.end().unwrap();
    assert_eq!(
        (cut.range(), cut.message, cut.noise),
        (1..3, Err(Error::Cut), 1)
    );
    for _ in 0..2 {
        assert!(reader.is_over() && !reader.is_open());
        assert_eq!(reader.feed(&[0xF0, 0xF7]), Err(Error::NoMessage));
        assert_eq!(reader.feed(&[]), Err(Error::NoMessage));
        assert_eq!(reader.end(), None);
        assert_eq!(reader.taken(), 3);
    }
    assert_eq!(Reader::new().end(), None);
}

/// An input of which each read is laid down. Behind them is its end, which is read once.
#[derive(Debug)]
struct Laid(VecDeque<Result<Vec<u8>, io::ErrorKind>>);

impl Laid {
    fn new(reads: impl IntoIterator<Item = Result<Vec<u8>, io::ErrorKind>>) -> Self {
        Self(reads.into_iter().chain([Ok(Vec::new())]).collect())
    }
}

impl Read for Laid {
    fn read(&mut self, buffer: &mut [u8]) -> io::Result<usize> {
        let bytes = self
            .0
            .pop_front()
            .expect("nothing is read behind the end")?;
        buffer[..bytes.len()].copy_from_slice(&bytes);
        Ok(bytes.len())
    }
}

/// Every message, where no read fails.
fn all(input: impl Read) -> Vec<Found> {
    incoming(input).map(Result::unwrap).collect()
}

#[test]
fn what_comes_in_is_what_the_file_has() {
    for stream in streams() {
        let expected: Vec<_> = messages(&stream).collect();
        assert_eq!(all(stream.as_slice()), expected);
        for length in [1, 7, 275, 4096] {
            let pieces = stream.chunks(length);
            let reads = pieces.clone().map(|piece| Ok(piece.to_vec()));
            assert_eq!(all(Laid::new(reads)), expected);
            // Every other read is interrupted.
            let reads =
                pieces.flat_map(|piece| [Err(io::ErrorKind::Interrupted), Ok(piece.to_vec())]);
            assert_eq!(all(Laid::new(reads)), expected);
        }
    }
}

#[test]
fn more_than_a_program_takes_of_a_file() {
    let stream = streams().concat().repeat(20);
    assert!(stream.len() > 65_536);
    let expected: Vec<_> = messages(&stream).collect();
    assert_eq!(all(stream.as_slice()), expected);
}

#[test]
fn each_message_as_soon_as_it_has_ended() {
    let edit = [0xF0, 0x10, 0x06, 0x06, 0x15, 0x7F, 0xF7];
    let mut input = Laid::new([Ok(edit.to_vec()), Ok(vec![0xF0])]);
    let mut found = incoming(&mut input);
    let first = found.next().unwrap().unwrap();
    assert_eq!(first.range(), 0..7);
    assert_eq!(
        (found.reader().taken(), found.reader().is_over()),
        (7, false)
    );
    drop(found);
    assert_eq!(input.0.len(), 2);
}

#[test]
fn a_read_that_fails() {
    let dump = Message::EditBuffer(Patch::default()).to_vec().unwrap();
    let (before, behind) = dump.split_at(100);
    let failed = io::ErrorKind::TimedOut;
    let reads = [
        Ok(before.to_vec()),
        Err(failed),
        Err(failed),
        Ok(behind.to_vec()),
    ];
    let mut found = incoming(Laid::new(reads));
    for _ in 0..2 {
        assert_eq!(found.next().unwrap().unwrap_err().kind(), failed);
        assert!(found.reader().is_open());
    }
    // It goes on where the input failed.
    let whole = found.next().unwrap().unwrap();
    assert_eq!((whole.range(), whole.message.is_ok()), (0..275, true));
    for _ in 0..3 {
        assert!(found.next().is_none());
    }

    // One that is given up is not cut.
    let reads = [Ok(before.to_vec()), Err(failed)];
    let stopped: io::Result<Vec<_>> = incoming(Laid::new(reads)).collect();
    assert_eq!(stopped.unwrap_err().kind(), failed);
}

#[test]
fn nothing_comes_behind_the_end() {
    let mut found = incoming(Laid::new([Ok(vec![0xF0, 0x10])]));
    let cut = found.next().unwrap().unwrap();
    assert_eq!((cut.range(), cut.message), (0..2, Err(Error::Cut)));
    for _ in 0..3 {
        assert!(found.next().is_none());
    }
    assert!(incoming(io::empty()).next().is_none());
}

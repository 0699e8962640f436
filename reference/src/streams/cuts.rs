//! Inputs for the cable reader: ways of cutting a stream into feeds, and streams for it, each by
//! kind, the hostile kinds first.
//!
//! A cut is how many of the bytes left are fed in the next call. Bytes that aren't taken are left,
//! and fed again with as many more or fewer as the next cut says.

use super::{inputs, operations, pieces, stream, Random};
use crate::frames::{END, START};
use crate::kinds::{length, opcode, MATRIX, OBERHEIM, VERSION};

/// A kind of cutting, for a stream of so many bytes.
struct CutKind {
    name: &'static str,
    make: fn(&mut Random, usize) -> Vec<usize>,
}

/// A kind of stream.
struct StreamKind {
    name: &'static str,
    make: fn(&mut Random) -> Vec<u8>,
}

const fn cut_kind(name: &'static str, make: fn(&mut Random, usize) -> Vec<usize>) -> CutKind {
    CutKind { name, make }
}

const fn stream_kind(name: &'static str, make: fn(&mut Random) -> Vec<u8>) -> StreamKind {
    StreamKind { name, make }
}

static CUT_KINDS: [CutKind; 15] = [
    cut_kind("many empty feeds", many_empty),
    cut_kind("bytes and empty feeds", bytes_and_empty),
    cut_kind("empty feeds at the ends", empty_at_the_ends),
    cut_kind("a byte at a time", |_, length| vec![1; length]),
    cut_kind("one byte alone", one_byte_alone),
    cut_kind("one cut", one_cut),
    cut_kind("more each time", more_each_time),
    cut_kind("near a message's length", near_a_message),
    cut_kind("small", small),
    cut_kind("small and large", small_and_large),
    cut_kind("large", large),
    cut_kind("16", |_, length| every(16, length)),
    cut_kind("256", |_, length| every(256, length)),
    cut_kind("4096", |_, length| every(4096, length)),
    cut_kind("all at once", |_, length| vec![length]),
];

static STREAM_KINDS: [StreamKind; 15] = [
    stream_kind("real time alone", real_time_alone),
    stream_kind("starts only", |random| vec![START; random.within(1..=400)]),
    stream_kind("never ending", never_ending),
    stream_kind("data behind one start", data_behind_one_start),
    stream_kind("near the room's length", near_the_room),
    stream_kind("noisy dumps", noisy_dumps),
    stream_kind("a dump in a dump", dumps_in_dumps),
    stream_kind("many starts", |random| {
        repeated(random, 3, pieces::start_rich_noise)
    }),
    stream_kind("noisy operations", |random| {
        repeated(random, 10, operations::noisy_operations)
    }),
    stream_kind("operations", |random| {
        repeated(random, 30, operations::any_operation)
    }),
    stream_kind("edits", |random| repeated(random, 30, pieces::any_edit)),
    stream_kind("masters", |random| repeated(random, 4, pieces::master)),
    stream_kind("splits", |random| repeated(random, 20, pieces::any_split)),
    stream_kind("dumps", |random| repeated(random, 4, pieces::any_dump)),
    stream_kind("of a seed", |random| stream(random.draw())),
];

/// How many kinds of cutting there are.
pub const KINDS: usize = CUT_KINDS.len();
/// How many kinds of stream there are.
pub const STREAMS: usize = STREAM_KINDS.len();

/// The name of a kind of cutting.
#[must_use]
pub fn cuts_name(kind: usize) -> &'static str {
    CUT_KINDS[kind].name
}

/// The name of a kind of stream.
#[must_use]
pub fn cable_stream_name(kind: usize) -> &'static str {
    STREAM_KINDS[kind].name
}

/// The cuts of a kind for a stream of this length. There is at least one, and together they are at
/// least the length.
pub fn cuts_of(random: &mut Random, kind: usize, length: usize) -> Vec<usize> {
    let mut cuts = (CUT_KINDS[kind].make)(random, length);
    if cuts.is_empty() {
        cuts.push(length);
    }
    cuts
}

/// The cuts of any kind.
pub fn cuts(random: &mut Random, length: usize) -> Vec<usize> {
    let kind = random.below(KINDS);
    cuts_of(random, kind, length)
}

/// How many bytes are fed in a call, by its turn from 0 on and the bytes left. The cuts come in
/// turn, and again from the first when all have come. None when all have and no byte is left.
#[must_use]
pub fn next_feed(cuts: &[usize], turn: usize, left: usize) -> Option<usize> {
    let cut = cuts[turn % cuts.len()].min(left);
    (left > 0 || turn < cuts.len()).then_some(cut)
}

/// A stream of a kind.
pub fn cable_stream_of(random: &mut Random, kind: usize) -> Vec<u8> {
    (STREAM_KINDS[kind].make)(random)
}

/// A stream of any kind; half the time one that a seed makes.
pub fn cable_stream(random: &mut Random) -> Vec<u8> {
    if random.one_in(2) {
        return stream(random.draw());
    }
    let kind = random.below(STREAMS);
    cable_stream_of(random, kind)
}

/// Draws cuts until they are the length together.
fn until(length: usize, mut draw: impl FnMut() -> usize) -> Vec<usize> {
    let mut cuts = Vec::new();
    let mut sum = 0;
    while sum < length {
        let cut = draw();
        sum += cut;
        cuts.push(cut);
    }
    cuts
}

/// Small feeds with runs of empty ones between them.
fn many_empty(random: &mut Random, length: usize) -> Vec<usize> {
    until(length, || match random.below(5) {
        0 => random.within(1..=20),
        _ => 0,
    })
}

/// A byte, then one to three empty feeds, and so on.
fn bytes_and_empty(random: &mut Random, length: usize) -> Vec<usize> {
    let mut cuts = Vec::new();
    for _ in 0..length {
        cuts.push(1);
        cuts.resize(cuts.len() + random.within(1..=3), 0);
    }
    cuts
}

/// Empty feeds first and last, any others between them.
fn empty_at_the_ends(random: &mut Random, length: usize) -> Vec<usize> {
    let before = vec![0; random.within(1..=3)];
    let between = small_and_large(random, length);
    let behind = vec![0; random.within(1..=3)];
    [before, between, behind].concat()
}

/// Two parts with one byte between them.
fn one_byte_alone(random: &mut Random, length: usize) -> Vec<usize> {
    let at = random.below(length.max(1));
    vec![at, 1, length.saturating_sub(at + 1)]
}

fn one_cut(random: &mut Random, length: usize) -> Vec<usize> {
    let at = random.below(length + 1);
    vec![at, length - at]
}

/// One byte more than the last time, as while bytes arrive and aren't taken.
fn more_each_time(_: &mut Random, length: usize) -> Vec<usize> {
    let mut cut = 0;
    until(length, || {
        cut += 1;
        cut
    })
}

/// The length of a message, or one or two bytes fewer or more.
fn near_a_message(random: &mut Random, length: usize) -> Vec<usize> {
    const LENGTHS: [usize; 7] = [
        length::UNLOCK_BANK,
        length::REMOTE_EDIT,
        length::STORE_EDIT_BUFFER,
        length::BUS_EDIT,
        length::SPLIT,
        length::SINGLE_PATCH,
        length::MASTER,
    ];
    until(length, || random.pick(&LENGTHS) + random.below(5) - 2)
}

fn small(random: &mut Random, length: usize) -> Vec<usize> {
    until(length, || random.within(1..=8))
}

fn large(random: &mut Random, length: usize) -> Vec<usize> {
    until(length, || random.within(1..=length))
}

fn small_and_large(random: &mut Random, length: usize) -> Vec<usize> {
    until(length, || match random.below(4) {
        0 => 0,
        1 => random.within(1..=length),
        _ => random.within(1..=8),
    })
}

fn every(size: usize, length: usize) -> Vec<usize> {
    vec![size; length.div_ceil(size)]
}

/// Real time in no message.
fn real_time_alone(random: &mut Random) -> Vec<u8> {
    let length = random.within(1..=500);
    inputs::real_time(random, length)
}

/// A message left open behind others: data, real time, or both.
fn never_ending(random: &mut Random) -> Vec<u8> {
    let mut out = repeated(random, 2, pieces::good_message);
    out.push(START);
    match random.below(3) {
        0 => pieces::data(random, 800, &mut out),
        1 => out.extend(real_time_alone(random)),
        _ => {
            let mut content = Vec::new();
            pieces::data(random, 400, &mut content);
            out.extend(inputs::with_real_time(random, &content));
        }
    }
    out
}

/// A start and a thousand data bytes, at times with a header or an end.
fn data_behind_one_start(random: &mut Random) -> Vec<u8> {
    let mut out = vec![random.byte_within(0..=127); random.within(900..=1_100)];
    out[0] = START;
    if random.one_in(2) {
        out[1..4].copy_from_slice(&[OBERHEIM, MATRIX, opcode::MASTER]);
    }
    if random.one_in(2) {
        out.push(END);
    }
    out
}

/// Messages of about as many bytes as the reader has room for, with a header of our device or
/// without, with real time or without, and what follows them.
fn near_the_room(random: &mut Random) -> Vec<u8> {
    let mut out = Vec::new();
    for _ in 0..random.within(1..=3) {
        let content = near_the_room_content(random);
        out.push(START);
        if random.one_in(2) {
            out.extend(inputs::with_real_time(random, &content));
        } else {
            out.extend(content);
        }
        match random.below(6) {
            0 => {}
            1 => out.push(random.byte_within(0x80..=0xF6)),
            _ => out.push(END),
        }
        if random.one_in(4) {
            pieces::between(random, &mut out);
        }
    }
    out
}

/// The bytes behind F0H: a master's, or others, one of them lost or a few added.
fn near_the_room_content(random: &mut Random) -> Vec<u8> {
    const HEADERS: [&[u8]; 6] = [
        &[],
        &[OBERHEIM],
        &[OBERHEIM, MATRIX],
        &[OBERHEIM, MATRIX, opcode::SINGLE_PATCH],
        &[OBERHEIM, MATRIX, opcode::MASTER],
        &[OBERHEIM, MATRIX, opcode::MASTER, VERSION],
    ];
    let mut content = if random.one_in(2) {
        let mut message = Vec::new();
        pieces::master(random, &mut message);
        message[1..length::MASTER - 1].to_vec()
    } else {
        let mut content = vec![random.byte_within(0..=127); length::MASTER - 2];
        let header = random.pick(&HEADERS);
        content[..header.len()].copy_from_slice(header);
        content
    };
    let kept = random.within(length::MASTER - 5..=length::MASTER + 3);
    content.resize(kept, random.byte_within(0..=127));
    if random.one_in(3) {
        content.truncate(length::MASTER - 2);
    }
    content
}

/// Dumps with real time inside, so that they are longer than the room and accepted all the same.
fn noisy_dumps(random: &mut Random) -> Vec<u8> {
    let mut out = Vec::new();
    for _ in 0..random.within(1..=3) {
        let mut dump = Vec::new();
        pieces::any_dump(random, &mut dump);
        let [_, content @ .., _] = &dump[..] else {
            unreachable!("a dump has a start and an end");
        };
        out.push(START);
        out.extend(inputs::with_real_time(random, content));
        out.push(END);
    }
    out
}

/// Dumps that break off behind the start, in the header, in the data, before the sum or the end,
/// each interrupted by the next. The last is whole.
fn dumps_in_dumps(random: &mut Random) -> Vec<u8> {
    let mut out = Vec::new();
    for _ in 0..random.within(1..=3) {
        let start = out.len();
        pieces::any_dump(random, &mut out);
        let whole = out.len();
        let kept = match random.below(4) {
            0 => start + random.within(1..=5),
            1 => whole - random.within(1..=3),
            2 => whole,
            _ => random.within(start + 1..=whole),
        };
        out.truncate(kept);
    }
    pieces::any_dump(random, &mut out);
    out
}

/// Up to so many pieces, one after another.
fn repeated(random: &mut Random, most: usize, piece: pieces::Piece) -> Vec<u8> {
    let mut out = Vec::new();
    for _ in 0..random.within(1..=most) {
        piece(random, &mut out);
    }
    out
}

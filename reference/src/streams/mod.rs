//! Streams made from a seed: good dumps, damaged ones, foreign ones, noise, and the sizes at the
//! limit.

pub mod cuts;
pub mod damage;
pub mod inputs;
mod operations;
mod pieces;
pub mod plans;
mod random;
pub mod seeds;
pub mod stored;
pub mod units;

pub use random::Random;

use crate::frames::{END, START};
use crate::LONGEST_INPUT;
use pieces::Piece;

/// A kind of stream.
struct Kind {
    name: &'static str,
    piece: Piece,
}

const fn kind(name: &'static str, piece: Piece) -> Kind {
    Kind { name, piece }
}

/// The kinds, in the order in which seeds pick them.
static KINDS: [Kind; 55] = [
    kind("operation not allowed", operations::bad_operation),
    kind(
        "operation of a wrong length",
        operations::operation_of_wrong_length,
    ),
    kind("real time in operations", operations::noisy_operations),
    kind("operations", operations::operations),
    kind("group chain", operations::group_chain),
    kind("real time only", pieces::real_time_only),
    kind("real time in runs", pieces::real_time_runs),
    kind("dense real time", pieces::dense_real_time),
    kind("sparse real time", pieces::sparse_real_time),
    kind("real time between", pieces::real_time_between),
    kind("nearly nothing", pieces::nearly_nothing),
    kind("single patch", pieces::single_patch),
    kind("split", pieces::split),
    kind("edit buffer", pieces::edit_buffer),
    kind("master", pieces::master),
    kind("remote edit", pieces::remote_edit),
    kind("bus edit", pieces::bus_edit),
    kind("request data", operations::request_data),
    kind("group mode", operations::group_mode),
    kind("set bank", operations::set_bank),
    kind("unlock bank", operations::unlock_bank),
    kind("store edit buffer", operations::store_edit_buffer),
    kind("bank", pieces::bank),
    kind("good message", pieces::good_message),
    kind("byte replaced", pieces::replaced),
    kind("byte lost", pieces::lost),
    kind("byte inserted", pieces::inserted),
    kind("neighbours exchanged", pieces::exchanged),
    kind("nibble pair replaced", pieces::pair_replaced),
    kind("two damages", pieces::two_damages),
    kind("three damages", pieces::three_damages),
    kind("mutated", pieces::mutated),
    kind("high nibble moved", pieces::high_nibble_moved),
    kind("master nibble", pieces::master_nibble),
    kind("split nibble", pieces::split_nibble),
    kind("split out of range", pieces::split_out_of_range),
    kind("split of a wrong length", pieces::split_of_wrong_length),
    kind("dummy splits", pieces::dummy_splits),
    kind("number not allowed", pieces::bad_number),
    kind("out of range", pieces::out_of_range),
    kind("half used", pieces::half_used),
    kind("wide data", pieces::wide_data),
    kind("wrong sum", pieces::wrong_sum),
    kind("any edit", pieces::any_edit),
    kind("other manufacturer", pieces::other_manufacturer),
    kind("other device", pieces::other_device),
    kind("other opcode", pieces::other_opcode),
    kind("wrong length", pieces::wrong_length),
    kind("real time inside", pieces::real_time_inside),
    kind("real time in refused", pieces::real_time_in_refused),
    kind("cut", pieces::cut),
    kind("interrupted", pieces::interrupted),
    kind("noise", pieces::noise),
    kind("start-rich noise", pieces::start_rich_noise),
    kind("header noise", pieces::header_noise),
];

/// The sizes around the limit.
const SIZES: [usize; 3] = [LONGEST_INPUT - 1, LONGEST_INPUT, LONGEST_INPUT + 1];

/// How often a cycle goes through the kinds before the sizes at the limit.
const ROUNDS: usize = 3;

/// This many consecutive seeds cover every kind and size.
pub const CYCLE: u64 = (ROUNDS * KINDS.len() + SIZES.len()) as u64;

/// What a seed picks.
enum Choice {
    Kind(&'static Kind),
    Size(usize),
}

fn choice(seed: u64) -> Choice {
    let slot = (seed % CYCLE) as usize;
    match slot.checked_sub(ROUNDS * KINDS.len()) {
        Some(size) => Choice::Size(SIZES[size]),
        None => Choice::Kind(&KINDS[slot % KINDS.len()]),
    }
}

/// The name of the kind of stream that a seed makes.
#[must_use]
pub fn kind_of(seed: u64) -> &'static str {
    match choice(seed) {
        Choice::Kind(kind) => kind.name,
        Choice::Size(_) => "size at the limit",
    }
}

/// The stream of a seed.
#[must_use]
pub fn stream(seed: u64) -> Vec<u8> {
    let mut random = Random::new(seed);
    match choice(seed) {
        Choice::Kind(kind) => surrounded(&mut random, kind.piece),
        Choice::Size(size) => sized(&mut random, size),
    }
}

/// One or a few pieces with other things before, between and behind them.
fn surrounded(random: &mut Random, piece: Piece) -> Vec<u8> {
    let mut out = Vec::new();
    surroundings(random, &mut out);
    for _ in 0..random.pick(&[1, 1, 1, 2, 4]) {
        piece(random, &mut out);
        surroundings(random, &mut out);
    }
    match random.below(8) {
        0 => pieces::cut(random, &mut out),
        1 => pieces::noisy_cut(random, &mut out),
        _ => {}
    }
    out
}

/// Often nothing, else bytes to be skipped, an open message, or any piece.
fn surroundings(random: &mut Random, out: &mut Vec<u8>) {
    match random.below(8) {
        0 => pieces::good_message(random, out),
        1 => pieces::open(random, out),
        2 => any_piece(random, out),
        3 | 4 => pieces::between(random, out),
        _ => {}
    }
}

/// A piece of any kind.
fn any_piece(random: &mut Random, out: &mut Vec<u8>) {
    let kind = &KINDS[random.below(KINDS.len())];
    (kind.piece)(random, out);
}

/// A stream of exactly this many bytes.
fn sized(random: &mut Random, size: usize) -> Vec<u8> {
    match random.below(10) {
        0 => vec![random.pick(&[0x00, START, END, 0xFE]); size],
        1 => {
            // A start, then real time only; sometimes the message is complete.
            let mut out = vec![random.byte_within(0xF8..=0xFF); size];
            out[0] = START;
            if random.one_in(2) {
                out[size - 1] = END;
            }
            out
        }
        2 => {
            // One message that ends with the input.
            let mut out = vec![random.byte_within(0..=127); size];
            out[..3].copy_from_slice(&[START, 0x10, 0x06]);
            out[size - 1] = END;
            out
        }
        3 => filled(random, size, pieces::start_rich_noise),
        4 => filled(random, size, pieces::remote_edit),
        5 => filled(random, size, pieces::dense_real_time),
        6 => filled(random, size, operations::any_operation),
        7 => {
            // A whole message at the very end.
            let mut last = Vec::new();
            pieces::good_message(random, &mut last);
            let mut out = filled(random, size - last.len(), pieces::between);
            out.extend_from_slice(&last);
            out
        }
        _ => filled(random, size, any_piece),
    }
}

/// Pieces until the size is reached; the last one is cut there.
fn filled(random: &mut Random, size: usize, piece: Piece) -> Vec<u8> {
    let mut out = Vec::with_capacity(size + LONGEST_INPUT / 16);
    while out.len() < size {
        piece(random, &mut out);
    }
    out.truncate(size);
    out
}

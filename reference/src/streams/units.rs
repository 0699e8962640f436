//! Inputs for a unit: units in any state, streams of several messages, and chains of units.

use super::{any_piece, inputs, operations, pieces, Random};
use crate::kinds::{ANY_UNIT, LAST_BANK, LAST_ID};
use crate::units::Unit;

/// A unit in any state, those too that no message leaves.
pub fn unit(random: &mut Random) -> Unit {
    Unit {
        bank: number(random, LAST_BANK),
        locked: random.one_in(2),
        group: random.one_in(2).then(|| number(random, LAST_ID)),
    }
}

/// Mostly a number up to the last one, else the one behind it, 7FH or any.
fn number(random: &mut Random, last: u8) -> u8 {
    match random.below(8) {
        0 => last + 1,
        1 => ANY_UNIT,
        2 => random.byte(),
        _ => random.byte_within(0..=last),
    }
}

/// A chain of one to seven units in any state.
pub fn chain(random: &mut Random) -> Vec<Unit> {
    (0..random.within(1..=7)).map(|_| unit(random)).collect()
}

/// A message for a unit or a chain of them: mostly a group message, often from the first ID on.
pub fn chain_message(random: &mut Random) -> Vec<u8> {
    let mut out = Vec::new();
    match random.below(8) {
        0 => operations::any_operation(random, &mut out),
        1 => operations::noisy_operations(random, &mut out),
        2 => any_piece(random, &mut out),
        3 => operations::group_mode(random, &mut out),
        _ => operations::group_chain(random, &mut out),
    }
    out
}

/// A stream of several messages of all kinds, most of them operations: refused, broken, among real
/// time, accepted.
pub fn unit_stream(random: &mut Random) -> Vec<u8> {
    const PIECES: [pieces::Piece; 13] = [
        operations::bad_operation,
        operations::operation_of_wrong_length,
        operations::noisy_operations,
        pieces::interrupted,
        pieces::open,
        pieces::between,
        pieces::good_message,
        any_piece,
        operations::group_chain,
        operations::operation,
        operations::operation,
        operations::operation,
        operations::operation,
    ];
    let mut out = Vec::new();
    for _ in 0..random.within(2..=12) {
        random.pick(&PIECES)(random, &mut out);
    }
    if random.one_in(4) {
        out = inputs::with_active_sensing(&out, random.within(1..=8));
    }
    out
}

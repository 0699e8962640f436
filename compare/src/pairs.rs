//! Pairs of patches with an output for the planner, or a list for its checker. The hostile kinds
//! come first.

use reference::streams::plans::{
    all_apart, equal, few_apart, list, list_of, pair, pair_of, right_list, Pair, LISTS, PAIRS,
};
use reference::streams::Random;
use reference::{apply_bus_edit, apply_edit, LONGEST_PLAN, PATCH_LENGTH};

use crate::calls;
use crate::lent::{Call, Lent};

/// So many pairs of each kind.
pub const KINDS: usize = TIMES * PAIRS;
/// So many of each kind, each with a list of each kind.
pub const LIST_KINDS: usize = TIMES * PAIRS * LISTS;
const TIMES: usize = 32;

/// Every byte at every place of the first patch, then of the second.
pub const CHANGES: usize = 2 * PATCH_LENGTH * 256;

/// Outputs from nothing to a few bytes more than the longest list needs, for two pairs.
pub const ROOMS: usize = 2 * LENGTHS;
const LENGTHS: usize = LONGEST_PLAN + 10;

/// Lists of every length up to the longest, for two pairs.
pub const CUTS: usize = 2 * (LONGEST_PLAN + 1);

/// Every byte at each of so many places of a list, for eight pairs; a shorter list again from its
/// start.
pub const REPLACED: usize = 8 * PLACES * 256;
const PLACES: usize = 40;

/// What makes the pair of this number.
const fn numbered(number: usize) -> Random {
    Random::new(number as u64)
}

/// Lends two patches, and something behind them.
fn lent(random: &mut Random, [a, b]: &Pair, third: &[u8]) -> Call {
    Call {
        first: Lent::new(random, a),
        second: Lent::new(random, b),
        third: Lent::new(random, third),
        ..calls::call(random)
    }
}

/// Lends two patches, and an output of this many bytes of any value.
fn lent_room(random: &mut Random, pair: &Pair, length: usize) -> Call {
    Call {
        third: Lent::filled(random, length),
        ..lent(random, pair, &[])
    }
}

/// The same, about as long as the list for them.
fn planned(random: &mut Random, pair: &Pair) -> Call {
    let [a, b] = pair;
    let needed = match reference::plan(a, b, &mut [0; LONGEST_PLAN]) {
        done if done.answer == 0 => done.detail,
        _ => random.pick(&[0, 9, LONGEST_PLAN]),
    };
    let length = calls::around(random, needed);
    lent_room(random, pair, length)
}

pub fn plan(random: &mut Random) -> Call {
    let pair = pair(random);
    planned(random, &pair)
}

pub fn plan_kind(random: &mut Random, index: usize) -> Call {
    let pair = pair_of(random, index / TIMES);
    planned(random, &pair)
}

pub fn plan_change(random: &mut Random, index: usize) -> Call {
    let pair = changed(random, index);
    planned(random, &pair)
}

pub fn plan_room(random: &mut Random, index: usize) -> Call {
    let pair = all_apart(&mut numbered(index / LENGTHS));
    lent_room(random, &pair, index % LENGTHS)
}

pub fn check(random: &mut Random) -> Call {
    let pair = pair(random);
    let list = list(random, &pair);
    lent(random, &pair, &list)
}

pub fn check_kind(random: &mut Random, index: usize) -> Call {
    let kind = index / TIMES;
    let pair = pair_of(random, kind / LISTS);
    let list = list_of(random, kind % LISTS, &pair);
    lent(random, &pair, &list)
}

/// The right list for the pair, whether its patches are good or not.
pub fn check_change(random: &mut Random, index: usize) -> Call {
    let pair = changed(random, index);
    let list = right_list(&pair);
    lent(random, &pair, &list)
}

/// The list for a pair before one byte of either patch is changed.
pub fn check_stale(random: &mut Random, index: usize) -> Call {
    let mut pair = few_apart(random);
    let list = right_list(&pair);
    change(&mut pair, index);
    lent(random, &pair, &list)
}

pub fn check_replaced(random: &mut Random, index: usize) -> Call {
    let [byte, ..] = index.to_le_bytes();
    let (number, place) = (index / (PLACES * 256), index / 256 % PLACES);
    let pair = few_apart(&mut numbered(number));
    let mut list = right_list(&pair);
    let place = place % list.len();
    list[place] = byte;
    lent(random, &pair, &list)
}

pub fn check_cut(random: &mut Random, index: usize) -> Call {
    let (number, length) = (index / (LONGEST_PLAN + 1), index % (LONGEST_PLAN + 1));
    let pair = all_apart(&mut numbered(number));
    let list = right_list(&pair);
    lent(random, &pair, &list[..length])
}

/// A good patch, the patch after a remote edit, and that edit as the list. The patches are equal
/// where the edit is refused.
pub fn check_edit(random: &mut Random, number: usize) -> Call {
    let [parameter, value, ..] = calls::every_edit(random, number).bytes;
    let [a, mut b] = equal(random);
    let _ = apply_edit(&mut b, parameter, value);
    lent(random, &[a, b], &calls::sent(0x06, &[parameter, value]))
}

/// The same with a bus edit.
pub fn check_bus_edit(random: &mut Random, number: usize) -> Call {
    let edit = calls::every_bus_edit(random, number).bytes;
    check_bus(random, edit)
}

pub fn check_amount(random: &mut Random, number: usize) -> Call {
    let edit = calls::every_amount(random, number).bytes;
    check_bus(random, edit)
}

fn check_bus(random: &mut Random, edit: [u8; 4]) -> Call {
    let [a, mut b] = equal(random);
    let [bus, source, amount, destination] = edit;
    let _ = apply_bus_edit(&mut b, bus, source, amount, destination);
    lent(random, &[a, b], &calls::sent(0x0B, &edit))
}

/// Two patches that are equal and good but for one byte of one of them.
fn changed(random: &mut Random, index: usize) -> Pair {
    let mut pair = equal(random);
    change(&mut pair, index);
    pair
}

/// Puts the byte of this number below `CHANGES` to its place.
fn change(pair: &mut Pair, index: usize) {
    let [byte, ..] = index.to_le_bytes();
    let place = index / 256;
    pair[place / PATCH_LENGTH][place % PATCH_LENGTH] = byte;
}

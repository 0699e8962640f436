//! Inputs for the planner and its checker: pairs of patches and lists of edits, each by kind, the
//! hostile kinds first.

use super::damage::Damage;
use super::inputs::{
    bad_byte, bad_patch, bytes, good_bus_edit, good_byte, good_patch, half_used_bus, near,
    real_time, used_bus,
};
use super::{operations, pieces, stream, Random};
use crate::kinds::opcode;
use crate::names::NAME_LENGTH;
use crate::patch::{Patch, BUSES};
use crate::plans::{bus_at, parts, LONGEST_PLAN};
use crate::table::{place_of, PATCH_LENGTH};

/// The patch to begin with and the one to arrive at, as they are lent.
pub type Pair = [Vec<u8>; 2];

/// A kind of pair.
struct PairKind {
    name: &'static str,
    make: fn(&mut Random) -> Pair,
}

/// A kind of list, made for a pair.
struct ListKind {
    name: &'static str,
    make: fn(&mut Random, &Pair) -> Vec<u8>,
}

const fn pair_kind(name: &'static str, make: fn(&mut Random) -> Pair) -> PairKind {
    PairKind { name, make }
}

const fn list_kind(name: &'static str, make: fn(&mut Random, &Pair) -> Vec<u8>) -> ListKind {
    ListKind { name, make }
}

static PAIR_KINDS: [PairKind; 16] = [
    pair_kind("wrong lengths", wrong_lengths),
    pair_kind("both bad", |random| {
        [bad_patch(random), bad_patch(random)].map(Vec::from)
    }),
    pair_kind("bad first", bad_first),
    pair_kind("bad second", bad_second),
    pair_kind("mended", mended),
    pair_kind("spoilt", spoilt),
    pair_kind("other name", other_name),
    pair_kind("other name and more", other_name_and_more),
    pair_kind("all apart", all_apart),
    pair_kind("any apart", any_apart),
    pair_kind("buses apart", buses_apart),
    pair_kind("few apart", few_apart),
    pair_kind("a bus apart", |random| {
        apart_at(random, BUSES, PATCH_LENGTH)
    }),
    pair_kind("a signed parameter apart", signed_apart),
    pair_kind("a parameter apart", |random| {
        apart_at(random, NAME_LENGTH, BUSES)
    }),
    pair_kind("equal", equal),
];

static LIST_KINDS: [ListKind; 24] = [
    list_kind("any bytes", any_bytes),
    list_kind("header noise", header_noise),
    list_kind("a stream", |random, _| stream(random.draw())),
    list_kind("the dump instead", dump_instead),
    list_kind("other messages", other_messages),
    list_kind("real time inside", real_time_inside),
    list_kind("real time between", real_time_between),
    list_kind("bytes between", bytes_between),
    list_kind("cut", cut),
    list_kind("byte replaced", byte_replaced),
    list_kind("byte lost", byte_lost),
    list_kind("byte added", byte_added),
    list_kind("neighbours exchanged", neighbours_exchanged),
    list_kind("an edit refused", edit_refused),
    list_kind("an edit missing", edit_missing),
    list_kind("an edit too many", edit_too_many),
    list_kind("seven bits as eight", eight_bits),
    list_kind("the way back", |_, [a, b]| {
        right_list(&[b.clone(), a.clone()])
    }),
    list_kind("hundreds of edits", hundreds_of_edits),
    list_kind("detours", |random, pair| joined(&detours(random, pair))),
    list_kind("needless edits", |random, pair| {
        joined(&needless(random, pair))
    }),
    list_kind("twice over", |_, pair| right_list(pair).repeat(2)),
    list_kind("another order", |random, pair| {
        joined(&shuffled(random, right(pair)))
    }),
    list_kind("right", |_, pair| right_list(pair)),
];

/// How many kinds of pair there are.
pub const PAIRS: usize = PAIR_KINDS.len();
/// How many kinds of list there are.
pub const LISTS: usize = LIST_KINDS.len();

/// The name of a kind of pair.
#[must_use]
pub fn pair_name(kind: usize) -> &'static str {
    PAIR_KINDS[kind].name
}

/// The name of a kind of list.
#[must_use]
pub fn list_name(kind: usize) -> &'static str {
    LIST_KINDS[kind].name
}

/// A pair of a kind.
pub fn pair_of(random: &mut Random, kind: usize) -> Pair {
    (PAIR_KINDS[kind].make)(random)
}

/// A list of a kind, made for a pair.
pub fn list_of(random: &mut Random, kind: usize, pair: &Pair) -> Vec<u8> {
    (LIST_KINDS[kind].make)(random, pair)
}

/// A pair of any kind.
pub fn pair(random: &mut Random) -> Pair {
    let kind = random.below(PAIRS);
    pair_of(random, kind)
}

/// A list of any kind, made for a pair.
pub fn list(random: &mut Random, pair: &Pair) -> Vec<u8> {
    let kind = random.below(LISTS);
    list_of(random, kind, pair)
}

/// One patch, the other or both of a length that isn't quite the right one.
fn wrong_lengths(random: &mut Random) -> Pair {
    let mut pair = any_apart(random);
    let which = random.pick(&[&[0][..], &[1], &[0, 1]]);
    for &index in which {
        let length = near(random, PATCH_LENGTH);
        pair[index].resize(length, 0);
    }
    pair
}

/// The second patch is good or bad too, or of a wrong length.
fn bad_first(random: &mut Random) -> Pair {
    let b = match random.below(3) {
        0 => good_patch(random).to_vec(),
        1 => bad_patch(random).to_vec(),
        _ => {
            let length = near(random, PATCH_LENGTH);
            bytes(random, length)
        }
    };
    [bad_patch(random).to_vec(), b]
}

/// The names differ or not.
fn bad_second(random: &mut Random) -> Pair {
    let mut a = good_patch(random);
    let b = bad_patch(random);
    if random.one_in(2) {
        a[..NAME_LENGTH].copy_from_slice(&good_patch(random)[..NAME_LENGTH]);
    }
    [a, b].map(Vec::from)
}

/// The first patch is the second, made bad behind its name: the list would mend it.
fn mended(random: &mut Random) -> Pair {
    let [a, b] = spoilt(random);
    [b, a]
}

/// The second patch is the first, made bad behind its name.
fn spoilt(random: &mut Random) -> Pair {
    let a = good_patch(random);
    let mut b = a;
    for _ in 0..random.within(1..=3) {
        let place = random.within(NAME_LENGTH..=PATCH_LENGTH - 1);
        if random.one_in(2) {
            b[place] = bad_byte(random, place);
        } else {
            let bus = BUSES + 3 * random.below(10);
            (b[bus], b[bus + 2]) = half_used_bus(random);
        }
    }
    [a, b].map(Vec::from)
}

/// Two patches that differ in one character of the name alone.
fn other_name(random: &mut Random) -> Pair {
    let a = good_patch(random);
    let mut b = a;
    change_name(random, &mut b);
    [a, b].map(Vec::from)
}

/// Two patches that differ in one character of the name, and in a few parts or in all.
fn other_name_and_more(random: &mut Random) -> Pair {
    let kind = random.pick(&[few_apart, all_apart, any_apart]);
    let [a, mut b] = kind(random);
    change_name(random, &mut b);
    [a, b]
}

fn change_name(random: &mut Random, patch: &mut [u8]) {
    let place = random.below(NAME_LENGTH);
    patch[place] = other_byte(random, place, patch[place]);
}

/// All 96 parameters and all ten buses differ.
pub fn all_apart(random: &mut Random) -> Pair {
    changed(random, NAME_LENGTH..PATCH_LENGTH)
}

/// Any two patches of one name.
fn any_apart(random: &mut Random) -> Pair {
    let a = good_patch(random);
    let mut b = good_patch(random);
    b[..NAME_LENGTH].copy_from_slice(&a[..NAME_LENGTH]);
    [a, b].map(Vec::from)
}

/// All ten buses differ and nothing else.
fn buses_apart(random: &mut Random) -> Pair {
    changed(random, BUSES..PATCH_LENGTH)
}

/// One to six parts differ.
pub fn few_apart(random: &mut Random) -> Pair {
    let places: Vec<usize> = (0..random.within(1..=6))
        .map(|_| random.within(NAME_LENGTH..=PATCH_LENGTH - 1))
        .collect();
    changed(random, places)
}

/// A good patch twice.
pub fn equal(random: &mut Random) -> Pair {
    let patch = good_patch(random).to_vec();
    [patch.clone(), patch]
}

/// One part differs, at one of these places.
fn apart_at(random: &mut Random, first: usize, end: usize) -> Pair {
    let place = random.within(first..=end - 1);
    changed(random, [place])
}

/// Detune or one of the signed amounts differs.
fn signed_apart(random: &mut Random) -> Pair {
    let place = random.within(85..=103);
    changed(random, [if place == 85 { 19 } else { place }])
}

/// A good patch, and the same with the parts at these places changed.
fn changed(random: &mut Random, places: impl IntoIterator<Item = usize>) -> Pair {
    let a = good_patch(random);
    let mut b = a;
    for place in places {
        match place.checked_sub(BUSES) {
            None => b[place] = other_byte(random, place, a[place]),
            Some(index) => {
                let source = BUSES + index / 3 * 3;
                let bus = other_bus(random, bus_at(&a, source));
                b[source..][..3].copy_from_slice(&bus);
            }
        }
    }
    [a, b].map(Vec::from)
}

/// Another byte that a field allows.
fn other_byte(random: &mut Random, place: usize, old: u8) -> u8 {
    loop {
        let byte = good_byte(random, place);
        if byte != old {
            return byte;
        }
    }
}

/// Another source, amount and destination: the amount alone, unused, used with the same amount, or
/// all.
fn other_bus(random: &mut Random, old: [u8; 3]) -> [u8; 3] {
    let [source, amount, destination] = old;
    loop {
        let other = good_byte(random, BUSES + 1);
        let used = used_bus(random);
        let bus = match random.below(6) {
            0 | 1 => [source, other, destination],
            2 => [0, amount, 0],
            3 => [0, other, 0],
            4 => [used.0, amount, used.1],
            _ => [used.0, other, used.1],
        };
        if bus != old {
            return bus;
        }
    }
}

/// An edit for each differing part, by rising byte place, whether the patches are good or not. None
/// where a patch has a wrong length.
#[must_use]
pub fn right_list(pair: &Pair) -> Vec<u8> {
    joined(&right(pair))
}

/// The edits of a list.
type Edits = Vec<Vec<u8>>;

fn joined(edits: &Edits) -> Vec<u8> {
    edits.concat()
}

/// The edits of the right list.
fn right([a, b]: &Pair) -> Edits {
    let patches: (Result<&Patch, _>, Result<&Patch, _>) =
        (a.as_slice().try_into(), b.as_slice().try_into());
    let (Ok(a), Ok(b)) = patches else {
        return Edits::new();
    };
    let edits = parts(a, b).map(|part| {
        let mut message = vec![0; LONGEST_PLAN];
        let length = part.put(b, &mut message).expect("there is room");
        message.truncate(length);
        message
    });
    edits.collect()
}

/// An allowed edit of either kind.
fn any_edit(random: &mut Random) -> Vec<u8> {
    let mut message = Vec::new();
    if random.one_in(2) {
        pieces::remote_edit(random, &mut message);
    } else {
        pieces::bus_edit(random, &mut message);
    }
    message
}

fn shuffled(random: &mut Random, mut edits: Edits) -> Edits {
    for last in (1..edits.len()).rev() {
        edits.swap(last, random.below(last + 1));
    }
    edits
}

/// The right edits and a few more, which change nothing in the end.
fn needless(random: &mut Random, pair: &Pair) -> Edits {
    let mut edits = right(pair);
    for _ in 0..random.within(1..=4) {
        if !edits.is_empty() && random.one_in(2) {
            let index = random.below(edits.len());
            edits.insert(index, edits[index].clone());
        } else {
            edits.splice(0..0, there_and_back(random, &pair[0]));
        }
    }
    edits
}

/// An edit of a patch, and the edit that undoes it.
fn there_and_back(random: &mut Random, patch: &[u8]) -> Edits {
    let other = good_patch(random).to_vec();
    let there = right(&[patch.to_vec(), other.clone()]);
    let back = right(&[other, patch.to_vec()]);
    // The same parts differ, whichever way one goes.
    let both: Vec<_> = there.into_iter().zip(back).collect();
    if both.is_empty() {
        return Edits::new();
    }
    let (there, back) = both[random.below(both.len())].clone();
    vec![there, back]
}

/// An edit and the one that undoes it, again and again, before the right ones.
fn hundreds_of_edits(random: &mut Random, pair: &Pair) -> Vec<u8> {
    let again = there_and_back(random, &pair[0]);
    let mut list = joined(&again).repeat(random.within(100..=400));
    list.extend(right_list(pair));
    list
}

/// The right edits, some of them behind one that sets the same part to something else.
fn detours(random: &mut Random, pair: &Pair) -> Edits {
    let mut edits = Edits::new();
    for edit in right(pair) {
        if random.one_in(2) {
            edits.push(astray(random, &edit));
        }
        edits.push(edit);
    }
    edits
}

/// An allowed edit of the part that another edit sets.
fn astray(random: &mut Random, edit: &[u8]) -> Vec<u8> {
    let mut other = edit.to_vec();
    match place_of(edit[4]) {
        Some(place) if edit[3] == opcode::REMOTE_EDIT => {
            other[5] = good_byte(random, place.into()) & 0x7F;
        }
        _ => other[5..8].copy_from_slice(&good_bus_edit(random)[1..]),
    }
    other
}

/// An edit of the part that another edit sets, to anything below 80H: mostly refused.
fn at_random(random: &mut Random, edit: &[u8]) -> Vec<u8> {
    let mut other = edit.to_vec();
    let end = other.len() - 1;
    for byte in &mut other[5..end] {
        *byte = random.byte_within(0..=0x7F);
    }
    other
}

/// A list to be damaged: right, in another order, or longer.
fn base(random: &mut Random, pair: &Pair) -> Edits {
    match random.below(4) {
        0 => needless(random, pair),
        1 => shuffled(random, right(pair)),
        _ => right(pair),
    }
}

/// The same with something put between two edits, before the first or behind the last.
fn with_between(random: &mut Random, pair: &Pair, between: Vec<u8>) -> Vec<u8> {
    let mut edits = base(random, pair);
    edits.insert(random.within(0..=edits.len()), between);
    joined(&edits)
}

fn any_bytes(random: &mut Random, _: &Pair) -> Vec<u8> {
    let length = random.pick(&[1, 7, 8, 9, 14, 16, 64, 762]);
    bytes(random, length)
}

fn header_noise(random: &mut Random, _: &Pair) -> Vec<u8> {
    let mut noise = Vec::new();
    pieces::header_noise(random, &mut noise);
    noise
}

/// The dump of the second patch, which would set it all at once; often behind some of the edits.
fn dump_instead(random: &mut Random, pair: &Pair) -> Vec<u8> {
    let mut edits = right(pair);
    edits.truncate(random.within(0..=edits.len()));
    let mut list = joined(&edits);
    let [_, b] = pair;
    let opcode = random.pick(&[opcode::SINGLE_PATCH, opcode::EDIT_BUFFER]);
    pieces::dump(opcode, 0, b, &mut list);
    list
}

/// An accepted message that is no edit, or one that our reader refuses.
fn other_messages(random: &mut Random, pair: &Pair) -> Vec<u8> {
    const OTHERS: [pieces::Piece; 9] = [
        operations::any_operation,
        pieces::single_patch,
        pieces::edit_buffer,
        pieces::master,
        pieces::other_manufacturer,
        pieces::other_device,
        pieces::other_opcode,
        pieces::wrong_length,
        pieces::wrong_sum,
    ];
    let mut message = Vec::new();
    random.pick(&OTHERS)(random, &mut message);
    with_between(random, pair, message)
}

/// One byte of real time inside an edit, or a few.
fn real_time_inside(random: &mut Random, pair: &Pair) -> Vec<u8> {
    let mut edits = base(random, pair);
    if edits.is_empty() {
        edits.push(any_edit(random));
    }
    for _ in 0..random.pick(&[1, 1, 3]) {
        let index = random.below(edits.len());
        let edit = &mut edits[index];
        let at = random.within(1..=edit.len() - 1);
        edit.insert(at, random.byte_within(0xF8..=0xFF));
    }
    joined(&edits)
}

fn real_time_between(random: &mut Random, pair: &Pair) -> Vec<u8> {
    let length = random.pick(&[1, 1, 2, 9]);
    let between = real_time(random, length);
    with_between(random, pair, between)
}

fn bytes_between(random: &mut Random, pair: &Pair) -> Vec<u8> {
    let between = match random.below(4) {
        0 => vec![random.pick(&[0x00, 0x7F, 0xF0, 0xF7])],
        1 => vec![random.byte_within(0x80..=0xF6)],
        2 => vec![random.byte_within(0..=0x7F)],
        _ => {
            let length = random.within(1..=9);
            bytes(random, length)
        }
    };
    with_between(random, pair, between)
}

fn cut(random: &mut Random, pair: &Pair) -> Vec<u8> {
    let mut list = joined(&base(random, pair));
    list.truncate(random.below(list.len().max(1)));
    list
}

/// Does a damage to a list that isn't empty.
fn damaged(
    random: &mut Random,
    pair: &Pair,
    damage: fn(&mut Random, &[u8], usize) -> Option<Damage>,
) -> Vec<u8> {
    let mut list = joined(&base(random, pair));
    if list.is_empty() {
        return vec![random.byte()];
    }
    let at = random.below(list.len());
    if let Some(damage) = damage(random, &list, at) {
        damage.apply(&mut list);
    }
    list
}

fn byte_replaced(random: &mut Random, pair: &Pair) -> Vec<u8> {
    damaged(random, pair, |random, list, at| {
        Some(Damage::replace(random, list, at))
    })
}

fn byte_lost(random: &mut Random, pair: &Pair) -> Vec<u8> {
    damaged(random, pair, |_, _, at| Some(Damage::Lose { at }))
}

fn byte_added(random: &mut Random, pair: &Pair) -> Vec<u8> {
    damaged(random, pair, |random, _, at| {
        Some(Damage::insert(random, at))
    })
}

fn neighbours_exchanged(random: &mut Random, pair: &Pair) -> Vec<u8> {
    damaged(random, pair, |random, list, _| {
        Damage::exchange(random, list, 0..list.len())
    })
}

/// An edit that is mostly refused before the right one of the same part, which would set it right.
fn edit_refused(random: &mut Random, pair: &Pair) -> Vec<u8> {
    let mut edits = base(random, pair);
    if edits.is_empty() {
        let mut edit = Vec::new();
        pieces::any_edit(random, &mut edit);
        return edit;
    }
    let index = random.below(edits.len());
    let edit = at_random(random, &edits[index]);
    edits.insert(index, edit);
    joined(&edits)
}

fn edit_missing(random: &mut Random, pair: &Pair) -> Vec<u8> {
    let mut edits = base(random, pair);
    if !edits.is_empty() {
        edits.remove(random.below(edits.len()));
    }
    joined(&edits)
}

/// An edit behind the right ones, which mostly spoils what they did.
fn edit_too_many(random: &mut Random, pair: &Pair) -> Vec<u8> {
    let mut edits = base(random, pair);
    edits.push(any_edit(random));
    joined(&edits)
}

/// A value or an amount below 0 as it is stored, with bit 7 set, and not as it is sent.
fn eight_bits(random: &mut Random, pair: &Pair) -> Vec<u8> {
    let mut edits = base(random, pair);
    for edit in &mut edits {
        let at = match edit.len() {
            7 => 5,
            _ => 6,
        };
        if edit[at] & 0x40 != 0 && random.one_in(2) {
            edit[at] |= 0x80;
        }
    }
    joined(&edits)
}

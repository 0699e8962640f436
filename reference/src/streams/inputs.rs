//! Inputs for single routines: good ones, bad ones, ones at the edges.

use std::array;

use super::Random;
use crate::kinds::{
    request, ANY_UNIT, FEWEST_UNITS, LAST_BANK, LAST_ID, LAST_NUMBER, LAST_SPLIT, MASTER_LENGTH,
    MOST_UNITS,
};
use crate::patch::{half_used, BUSES};
use crate::rows::Row;
use crate::splits::{self, SPLIT_LENGTH};
use crate::table::{parameter_of, PATCH_LENGTH, ROWS};
use crate::NAME_LENGTH;

/// The places of a source and a destination; all buses have the ranges of the first.
const SOURCE: usize = BUSES;
const DESTINATION: usize = BUSES + 2;

/// A patch in range, each bus used or unused as a whole.
pub fn good_patch(random: &mut Random) -> [u8; PATCH_LENGTH] {
    let mut patch = [0; PATCH_LENGTH];
    for (place, byte) in patch.iter_mut().enumerate() {
        *byte = good_byte(random, place);
    }
    for bus in patch[BUSES..].as_chunks_mut::<3>().0 {
        let [source, _, destination] = bus;
        if random.one_in(3) {
            (*source, *destination) = (0, 0);
        } else if half_used(*source, *destination) {
            (*source, *destination) = used_bus(random);
        }
    }
    patch
}

/// A split in range.
pub fn good_split(random: &mut Random) -> [u8; SPLIT_LENGTH] {
    array::from_fn(|place| in_range(random, &splits::ROWS[place]))
}

/// A byte its field of a patch allows, the ends of the range more often than the rest.
pub fn good_byte(random: &mut Random, place: usize) -> u8 {
    in_range(random, &ROWS[place])
}

/// A byte its field of a patch doesn't allow, below the least value or above the greatest: just
/// outside, 128 away, or any.
pub fn bad_byte(random: &mut Random, place: usize) -> u8 {
    out_of_range(random, &ROWS[place])
}

fn in_range(random: &mut Random, row: &Row) -> u8 {
    let (least, greatest) = (row.least.cast_unsigned(), row.greatest.cast_unsigned());
    match random.below(8) {
        0 => least,
        1 => greatest,
        _ => least.wrapping_add(random.byte_within(0..=greatest.wrapping_sub(least))),
    }
}

fn out_of_range(random: &mut Random, row: &Row) -> u8 {
    let range = row.least..=row.greatest;
    loop {
        let byte = match random.below(4) {
            0 => row.greatest.cast_unsigned() + 1,
            1 => row.least.cast_unsigned().wrapping_sub(1),
            2 => in_range(random, row) ^ 0x80,
            _ => random.byte(),
        };
        if !range.contains(&byte.cast_signed()) {
            return byte;
        }
    }
}

/// A patch out of range at one place, each as often as the others, all else good.
pub fn one_out_of_range_patch(random: &mut Random) -> [u8; PATCH_LENGTH] {
    let mut patch = good_patch(random);
    let place = random.below(PATCH_LENGTH);
    patch[place] = bad_byte(random, place);
    patch
}

/// A patch out of range at one to three places, all else good.
pub fn out_of_range_patch(random: &mut Random) -> [u8; PATCH_LENGTH] {
    let mut patch = good_patch(random);
    for _ in 0..random.within(1..=3) {
        let place = any_place(random);
        patch[place] = bad_byte(random, place);
    }
    patch
}

/// A place of a patch, half the time in a bus: the buses stand last, and the lowest bad place is
/// the one answered.
fn any_place(random: &mut Random) -> usize {
    if random.one_in(2) {
        random.within(BUSES..=PATCH_LENGTH - 1)
    } else {
        random.below(PATCH_LENGTH)
    }
}

/// A patch in range with one to three buses half used.
pub fn half_used_patch(random: &mut Random) -> [u8; PATCH_LENGTH] {
    let mut patch = good_patch(random);
    for _ in 0..random.within(1..=3) {
        let bus = BUSES + 3 * random.below(10);
        (patch[bus], patch[bus + 2]) = half_used_bus(random);
    }
    patch
}

/// A source and a destination, neither of them zero.
pub(super) fn used_bus(random: &mut Random) -> (u8, u8) {
    (used_code(random, SOURCE), used_code(random, DESTINATION))
}

/// A source and a destination, one of them zero.
pub(super) fn half_used_bus(random: &mut Random) -> (u8, u8) {
    if random.one_in(2) {
        (used_code(random, SOURCE), 0)
    } else {
        (0, used_code(random, DESTINATION))
    }
}

/// A source or a destination that isn't zero, the greatest more often than the rest.
fn used_code(random: &mut Random, place: usize) -> u8 {
    loop {
        let code = good_byte(random, place);
        if code != 0 {
            return code;
        }
    }
}

/// A patch of the right length, with a fault of field, of bus, or both.
pub fn bad_patch(random: &mut Random) -> [u8; PATCH_LENGTH] {
    match random.below(5) {
        0 => one_out_of_range_patch(random),
        1 => out_of_range_patch(random),
        2 | 3 => half_used_patch(random),
        _ => {
            let mut patch = half_used_patch(random);
            let place = any_place(random);
            patch[place] = bad_byte(random, place);
            patch
        }
    }
}

/// A split out of range at one place, each as often as the others, all else good.
pub fn one_out_of_range_split(random: &mut Random) -> [u8; SPLIT_LENGTH] {
    let mut split = good_split(random);
    let row = &splits::ROWS[random.below(SPLIT_LENGTH)];
    split[usize::from(row.place)] = out_of_range(random, row);
    split
}

/// A split out of range at one to three places, all else good.
pub fn out_of_range_split(random: &mut Random) -> [u8; SPLIT_LENGTH] {
    let mut split = one_out_of_range_split(random);
    for _ in 0..random.below(3) {
        let row = &splits::ROWS[random.below(SPLIT_LENGTH)];
        split[usize::from(row.place)] = out_of_range(random, row);
    }
    split
}

/// A lent patch: mostly good, sometimes bad, sometimes of a wrong length.
pub fn patch(random: &mut Random) -> Vec<u8> {
    match random.below(8) {
        0 => {
            let length = near(random, PATCH_LENGTH);
            bytes(random, length)
        }
        1 | 2 => bad_patch(random).to_vec(),
        _ => good_patch(random).to_vec(),
    }
}

/// A lent split: mostly good, sometimes out of range, sometimes of a wrong length.
pub fn split(random: &mut Random) -> Vec<u8> {
    match random.below(8) {
        0 => {
            let length = near(random, SPLIT_LENGTH);
            bytes(random, length)
        }
        1 => one_out_of_range_split(random).to_vec(),
        2 => out_of_range_split(random).to_vec(),
        _ => good_split(random).to_vec(),
    }
}

/// A lent master: mostly of the right length.
pub fn master(random: &mut Random) -> Vec<u8> {
    let length = if random.one_in(4) {
        near(random, MASTER_LENGTH)
    } else {
        MASTER_LENGTH
    };
    bytes(random, length)
}

/// A lent bank: mostly a few good patches, sometimes all hundred, a bad one among them, or a wrong
/// length.
pub fn bank(random: &mut Random) -> Vec<u8> {
    let count = match random.below(16) {
        0 => 0,
        1 => 99,
        2 => 100,
        3 => 101,
        _ => random.within(1..=6),
    };
    let mut bank: Vec<u8> = (0..count).flat_map(|_| good_patch(random)).collect();
    if count > 0 && random.one_in(3) {
        for _ in 0..random.within(1..=2) {
            let bad = bad_patch(random);
            bank[PATCH_LENGTH * random.below(count)..][..PATCH_LENGTH].copy_from_slice(&bad);
        }
    }
    if random.one_in(6) {
        bank.resize(near(random, bank.len()), 0);
    }
    bank
}

/// A patch number to write: mostly allowed.
pub fn number(random: &mut Random) -> u8 {
    match random.below(8) {
        0 => random.pick(&[99, 100, 127, 128, 255]),
        1 => random.byte(),
        _ => random.byte_within(0..=99),
    }
}

/// A split number to write: mostly allowed.
pub fn split_number(random: &mut Random) -> u8 {
    match random.below(8) {
        0 => random.pick(&[LAST_SPLIT, LAST_SPLIT + 1, 63, 99, 100, 127, 128, 255]),
        1 => random.byte(),
        _ => random.byte_within(0..=LAST_SPLIT),
    }
}

/// A name to set: mostly good, sometimes with a character not allowed or of a wrong length.
pub fn name(random: &mut Random) -> Vec<u8> {
    let length = if random.one_in(6) {
        near(random, NAME_LENGTH)
    } else {
        NAME_LENGTH
    };
    let mut name: Vec<u8> = (0..length).map(|_| random.byte_within(32..=95)).collect();
    if !name.is_empty() && random.one_in(3) {
        let at = random.below(name.len());
        name[at] = match random.below(3) {
            0 => random.byte(),
            _ => random.pick(&[31, 32, 63, 64, 95, 96, 97, 127, 128, 255]),
        };
    }
    name
}

/// A parameter to ask about: mostly one that there is.
pub fn parameter(random: &mut Random) -> u8 {
    match random.below(8) {
        0 => random.pick(&NO_PARAMETERS),
        1 => random.byte(),
        _ => field(random).0,
    }
}

/// Numbers that are no parameter's.
const NO_PARAMETERS: [u8; 8] = [39, 49, 89, 99, 100, 121, 127, 128];

/// A parameter with its byte place.
fn field(random: &mut Random) -> (u8, usize) {
    let place = random.byte_within(8..=103);
    let parameter = parameter_of(place).expect("bytes 8 to 103 have parameters");
    (parameter, place.into())
}

/// A remote edit that is allowed: parameter, value.
pub fn good_edit(random: &mut Random) -> [u8; 2] {
    let (parameter, place) = field(random);
    // Seven bits are sent; all stored values of these fields come back from them.
    [parameter, good_byte(random, place) & 0x7F]
}

/// A remote edit as handed to a routine: any two bytes, with a liking for the edges.
pub fn edit(random: &mut Random) -> [u8; 2] {
    match random.below(6) {
        0 => [random.pick(&NO_PARAMETERS), random.byte()],
        1 => [random.byte(), random.byte()],
        2 => {
            let [parameter, value] = good_edit(random);
            [parameter, value | 0x80]
        }
        3 => {
            let (parameter, place) = field(random);
            [parameter, bad_byte(random, place) & 0x7F]
        }
        _ => good_edit(random),
    }
}

/// A matrix modulation edit that is allowed: bus, source, amount, destination.
pub fn good_bus_edit(random: &mut Random) -> [u8; 4] {
    let bus = random.byte_within(0..=9);
    let amount = random.byte_within(0..=127);
    let (source, destination) = if random.one_in(4) {
        (0, 0)
    } else {
        used_bus(random)
    };
    [bus, source, amount, destination]
}

/// A matrix modulation edit as handed to a routine: any four bytes, with a liking for the edges.
pub fn bus_edit(random: &mut Random) -> [u8; 4] {
    let mut edit = good_bus_edit(random);
    match random.below(7) {
        0 => {
            (edit[1], edit[3]) = half_used_bus(random);
        }
        1 => {
            const EDGES: [u8; 11] = [0, 9, 10, 20, 21, 32, 33, 63, 64, 127, 128];
            for _ in 0..random.within(1..=2) {
                edit[random.below(4)] = random.pick(&EDGES);
            }
        }
        2 => edit[random.below(4)] = random.byte(),
        3 => edit = array::from_fn(|_| random.byte()),
        4 => {
            let (index, place) = random.pick(&[(1, SOURCE), (3, DESTINATION)]);
            edit[index] = bad_byte(random, place);
        }
        _ => {}
    }
    edit
}

/// The types of request that have no number.
const WITHOUT_NUMBER: [u8; 3] = [request::ALL, request::MASTER, request::EDIT_BUFFER];

/// A request that is allowed: type, number.
pub fn good_request(random: &mut Random) -> [u8; 2] {
    if random.one_in(2) {
        [random.pick(&WITHOUT_NUMBER), 0]
    } else {
        [request::SINGLE_PATCH, up_to(random, LAST_NUMBER)]
    }
}

/// A request that isn't, of bytes up to `most`: with a number that its type hasn't, with one too
/// great, or of a type that 000 doesn't name.
pub fn bad_request(random: &mut Random, most: u8) -> [u8; 2] {
    let [_, number] = good_request(random);
    match random.below(4) {
        0 => [random.pick(&WITHOUT_NUMBER), above(random, 0, most)],
        1 => [request::SINGLE_PATCH, above(random, LAST_NUMBER, most)],
        2 => [2, number],
        _ => [above(random, request::EDIT_BUFFER, most), number],
    }
}

/// A request as handed to a routine: any two bytes, with a liking for the edges.
pub fn request(random: &mut Random) -> [u8; 2] {
    handed(random, good_request, bad_request)
}

/// A group message that is allowed: total, ID, which need not be below the total.
pub fn good_group(random: &mut Random) -> [u8; 2] {
    let total = FEWEST_UNITS + up_to(random, MOST_UNITS - FEWEST_UNITS);
    [total, up_to(random, LAST_ID)]
}

/// A group message that isn't, of bytes up to `most`: its total, its ID or both.
pub fn bad_group(random: &mut Random, most: u8) -> [u8; 2] {
    let [total, id] = good_group(random);
    let bad_total = match random.below(3) {
        0 => random.byte_within(0..=FEWEST_UNITS - 1),
        _ => above(random, MOST_UNITS, most),
    };
    let bad_id = above(random, LAST_ID, most);
    random.pick(&[[bad_total, id], [total, bad_id], [bad_total, bad_id]])
}

/// A group message as handed to a routine: any two bytes, with a liking for the edges.
pub fn group(random: &mut Random) -> [u8; 2] {
    handed(random, good_group, bad_group)
}

/// A bank number that is allowed.
pub fn good_bank_number(random: &mut Random) -> [u8; 1] {
    [up_to(random, LAST_BANK)]
}

/// A bank number that isn't, up to `most`.
pub fn bad_bank_number(random: &mut Random, most: u8) -> [u8; 1] {
    [above(random, LAST_BANK, most)]
}

/// A bank number as handed to a routine: any byte, with a liking for the edges.
pub fn bank_number(random: &mut Random) -> [u8; 1] {
    handed(random, good_bank_number, bad_bank_number)
}

/// A store message that is allowed: number, bank, ID.
pub fn good_store(random: &mut Random) -> [u8; 3] {
    let id = match random.below(4) {
        0 => ANY_UNIT,
        _ => up_to(random, LAST_ID),
    };
    [up_to(random, LAST_NUMBER), up_to(random, LAST_BANK), id]
}

/// A store message that isn't, of bytes up to `most`: its number, its bank, its ID, or two of them.
pub fn bad_store(random: &mut Random, most: u8) -> [u8; 3] {
    let mut store = good_store(random);
    for _ in 0..random.pick(&[1, 1, 2]) {
        let place = random.below(store.len());
        store[place] = bad_store_byte(random, place, most);
    }
    store
}

/// A number, a bank or an ID, by its place behind the opcode, that no store message has, up to
/// `most`.
pub fn bad_store_byte(random: &mut Random, place: usize, most: u8) -> u8 {
    match place {
        0 => above(random, LAST_NUMBER, most),
        1 => above(random, LAST_BANK, most),
        _ => no_unit(random, most),
    }
}

/// A store message as handed to a routine: any three bytes, with a liking for the edges.
pub fn store(random: &mut Random) -> [u8; 3] {
    handed(random, good_store, bad_store)
}

/// An ID up to `most` that is no unit's and not that of any.
fn no_unit(random: &mut Random, most: u8) -> u8 {
    loop {
        let id = above(random, LAST_ID, most);
        if id != ANY_UNIT {
            return id;
        }
    }
}

/// A value up to the last one, the ends more often than the rest.
fn up_to(random: &mut Random, last: u8) -> u8 {
    match random.below(8) {
        0 => 0,
        1 => last,
        _ => random.byte_within(0..=last),
    }
}

/// A value above the last one, up to `most`: the next, the greatest, or any.
fn above(random: &mut Random, last: u8, most: u8) -> u8 {
    match random.below(4) {
        0 => last + 1,
        1 => most,
        _ => random.byte_within(last + 1..=most),
    }
}

/// The bytes of an operation: good, bad or any.
fn handed<const LENGTH: usize>(
    random: &mut Random,
    good: fn(&mut Random) -> [u8; LENGTH],
    bad: fn(&mut Random, u8) -> [u8; LENGTH],
) -> [u8; LENGTH] {
    match random.below(4) {
        0 => bad(random, u8::MAX),
        1 => array::from_fn(|_| random.byte()),
        _ => good(random),
    }
}

/// A lent output for a routine that may need `needed` bytes: random bytes, as many as needed, one
/// fewer, none, or more.
pub fn output(random: &mut Random, needed: usize) -> Vec<u8> {
    let length = match random.below(8) {
        0 => needed.saturating_sub(1),
        1 => random.below(needed + 1),
        2 => needed,
        _ => needed + random.below(40),
    };
    bytes(random, length)
}

/// A place to walk from: mostly inside the input, sometimes at or past its end.
pub fn place(random: &mut Random, input: &[u8]) -> usize {
    match random.below(8) {
        0 => 0,
        1 => input.len(),
        2 => input.len() + random.below(3),
        3 => usize::MAX - random.below(2),
        _ => random.below(input.len() + 1),
    }
}

/// These bytes with one FEH (Active Sensing) behind every `every`-th of them; `every` is not 0. One
/// stands behind the last byte too if the number of bytes is a multiple of `every`.
#[must_use]
pub fn with_active_sensing(bytes: &[u8], every: usize) -> Vec<u8> {
    let mut noisy = Vec::with_capacity(bytes.len() + bytes.len() / every);
    for part in bytes.chunks(every) {
        noisy.extend_from_slice(part);
        if part.len() == every {
            noisy.push(ACTIVE_SENSING);
        }
    }
    noisy
}

const ACTIVE_SENSING: u8 = 0xFE;

/// Real time: one value again and again, or any.
pub fn real_time(random: &mut Random, length: usize) -> Vec<u8> {
    let only = random.byte_within(0xF8..=0xFF);
    if random.one_in(2) {
        return vec![only; length];
    }
    let any = (0..length).map(|_| random.byte_within(0xF8..=0xFF));
    any.collect()
}

/// The bytes inside a message with real time before, between or behind them: runs of it, dense,
/// sparse, or a few here and there.
pub fn with_real_time(random: &mut Random, inside: &[u8]) -> Vec<u8> {
    match random.below(4) {
        0 => with_runs(random, inside),
        1 => with_dense_real_time(random, inside),
        2 => with_sparse_real_time(random, inside),
        _ => with_scattered(random, inside),
    }
}

/// Lengths of runs: around those of the blocks in which a message may be looked through, and more
/// than a byte can count.
const RUNS: [usize; 17] = [
    1, 7, 8, 9, 15, 16, 17, 31, 33, 63, 65, 127, 129, 255, 257, 301, 400,
];

/// One or two runs of real time: before the first byte, behind the last, or anywhere.
pub fn with_runs(random: &mut Random, inside: &[u8]) -> Vec<u8> {
    let mut noisy = inside.to_vec();
    for _ in 0..random.within(1..=2) {
        let at = match random.below(3) {
            0 => 0,
            1 => noisy.len(),
            _ => random.below(noisy.len() + 1),
        };
        let length = random.pick(&RUNS);
        noisy.splice(at..at, real_time(random, length));
    }
    noisy
}

/// Real time behind every byte, every second or every third.
pub fn with_dense_real_time(random: &mut Random, inside: &[u8]) -> Vec<u8> {
    let every = random.within(1..=3);
    with_real_time_every(random, inside, every)
}

/// Real time behind every 16th byte, or about as often or as seldom.
pub fn with_sparse_real_time(random: &mut Random, inside: &[u8]) -> Vec<u8> {
    let every = random.pick(&[8, 15, 16, 17, 31, 32, 33, 64, 128]);
    with_real_time_every(random, inside, every)
}

/// Real time before one of the first `every` bytes, and again behind every `every`-th byte from
/// there on.
fn with_real_time_every(random: &mut Random, inside: &[u8], every: usize) -> Vec<u8> {
    let first = random.below(every.min(inside.len() + 1));
    let mut ticks = real_time(random, inside.len() / every + 1).into_iter();
    let mut noisy = Vec::new();
    for place in 0..=inside.len() {
        if place % every == first {
            noisy.extend(ticks.next());
        }
        noisy.extend(inside.get(place));
    }
    noisy
}

/// One to five bytes of real time, each anywhere.
fn with_scattered(random: &mut Random, inside: &[u8]) -> Vec<u8> {
    let mut noisy = inside.to_vec();
    for _ in 0..random.within(1..=5) {
        let at = random.below(noisy.len() + 1);
        noisy.insert(at, random.byte_within(0xF8..=0xFF));
    }
    noisy
}

/// Any bytes.
pub fn bytes(random: &mut Random, length: usize) -> Vec<u8> {
    (0..length).map(|_| random.byte()).collect()
}

/// A length that isn't quite the right one.
pub(super) fn near(random: &mut Random, right: usize) -> usize {
    match random.below(5) {
        0 => 0,
        1 => right.saturating_sub(1),
        2 => right + 1,
        3 => 2 * right,
        _ => random.below(2 * right + 2),
    }
}

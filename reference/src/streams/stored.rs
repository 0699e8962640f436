//! Stored files of units, old and new, each by kind: the hostile kinds first, then the good ones.

use super::damage::Damage;
use super::inputs::{
    bad_byte, bytes, good_patch, half_used_bus, half_used_patch, one_out_of_range_patch, real_time,
    with_active_sensing, with_real_time,
};
use super::pieces::{self, Piece};
use super::{operations, stream, Random};
use crate::answers::{CUT, HALF_USED, INTERRUPTED, WRONG_LENGTH};
use crate::frames::{END, START};
use crate::kinds::{opcode, LAST_NUMBER, MASTER_LENGTH};
use crate::patch::BUSES;
use crate::reading::reports;
use crate::table::PATCH_LENGTH;
use crate::LONGEST_INPUT;

/// Makes a file, or a part of one.
type Make = fn(&mut Random) -> Vec<u8>;

/// A kind of file.
struct Kind {
    name: &'static str,
    make: Make,
}

const fn kind(name: &'static str, make: Make) -> Kind {
    Kind { name, make }
}

static HOSTILE_OLD_KINDS: [Kind; 26] = [
    kind("any bytes", any_bytes),
    kind("header noise", |random| made(random, pieces::header_noise)),
    kind("a stream", |random| stream(random.draw())),
    kind("a new file", |random| few_records(random).file()),
    kind("bytes before", |random| before(random, stray_bytes)),
    kind("bytes between", |random| between(random, stray_bytes)),
    kind("bytes behind", |random| behind(random, stray_bytes)),
    kind("real time before", |random| before(random, ticks)),
    kind("real time between", |random| between(random, ticks)),
    kind("real time behind", |random| behind(random, ticks)),
    kind("another message", |random| anywhere(random, other_message)),
    kind("a foreign message", |random| {
        anywhere(random, foreign_message)
    }),
    kind("a master first", master_first),
    kind("a master not last", master_not_last),
    kind("two masters", two_masters),
    kind("too many patches", |random| too_many(random).concat()),
    kind("a refused message", |random| anywhere(random, refused)),
    kind("a patch number not allowed", |random| {
        anywhere(random, wrong_number)
    }),
    kind("a patch out of range", |random| {
        anywhere(random, out_of_range)
    }),
    kind("a patch half used", |random| anywhere(random, half_used)),
    kind("refused behind a fault of form", |random| {
        both(random, fault_of_form, refused)
    }),
    kind("refused before a fault of form", |random| {
        both(random, refused, fault_of_form)
    }),
    kind("refused twice", |random| both(random, refused, refused)),
    kind("refused and too many", refused_and_too_many),
    kind("cut", |random| cut(random, few)),
    kind("damaged", |random| damaged(random, few)),
];

static GOOD_OLD_KINDS: [Kind; 11] = [
    kind("nothing", |_| Vec::new()),
    kind("a master", master),
    kind("a patch", |random| patches(random, 1).concat()),
    kind("a few patches", |random| few_patches(random).concat()),
    kind("a few patches and a master", few_and_master),
    kind("repeated numbers", repeated_numbers),
    kind("falling numbers", falling_numbers),
    kind("real time inside", real_time_inside),
    kind("active sensing inside", active_sensing_inside),
    kind("99 or 100 patches", nearly_too_many),
    kind("around 65,536 bytes", around_the_limit),
];

static HOSTILE_NEW_KINDS: [Kind; 28] = [
    kind("any bytes", any_bytes),
    kind("an old file", few),
    kind("shorter than a header", |random| {
        let file = few_records(random).file();
        file[..random.below(HEADER)].to_vec()
    }),
    kind("a header alone", |random| few_records(random).header()),
    kind("a number one off", |random| misheaded(random, one_off)),
    kind("bytes of a number exchanged", |random| {
        misheaded(random, bytes_exchanged)
    }),
    kind("high bytes first", |random| {
        misheaded(random, |_, numbers| {
            *numbers = numbers.map(u16::swap_bytes);
        })
    }),
    kind("offsets exchanged", |random| {
        misheaded(random, |_, numbers| numbers.swap(1, 3))
    }),
    kind("counts exchanged", |random| {
        misheaded(random, |_, numbers| numbers.swap(0, 2))
    }),
    kind("total too long or short", |random| {
        misheaded(random, other_total)
    }),
    kind("a number of any value", |random| {
        misheaded(random, any_number)
    }),
    kind("no offset of no master", no_offset_of_no_master),
    kind("no offset of no patches", no_offset_of_no_patches),
    kind("a byte longer or shorter", longer_or_shorter),
    kind("a record more or fewer", more_or_fewer),
    kind("101 patches", |random| any_masters(random, 101).file()),
    kind("two masters", two_master_records),
    kind("a master first", master_record_first),
    kind("around 65,536 bytes", |random| {
        let mut file = few_records(random).file();
        file.resize(near_the_limit(random), random.byte());
        file
    }),
    kind("bad records behind a bad header", bad_behind_bad_header),
    kind("a patch number not allowed", |random| {
        one_bad(random, spoil_number)
    }),
    kind("a patch out of range", |random| {
        one_bad(random, spoil_field)
    }),
    kind("a patch half used", |random| one_bad(random, spoil_bus)),
    kind("a record bad in all ways", |random| {
        one_bad(random, spoil_all)
    }),
    kind("several bad records", several_bad),
    kind("a bad record of many", bad_of_many),
    kind("cut", |random| {
        cut(random, |random| few_records(random).file())
    }),
    kind("damaged", |random| {
        damaged(random, |random| few_records(random).file())
    }),
];

static GOOD_NEW_KINDS: [Kind; 8] = [
    kind("nothing", |random| records(random, 0).file()),
    kind("a master", |random| with_master(random, 0).file()),
    kind("a patch", |random| records(random, 1).file()),
    kind("a few patches", |random| {
        let count = random.within(2..=6);
        records(random, count).file()
    }),
    kind("a few patches and a master", |random| {
        let count = random.within(1..=6);
        with_master(random, count).file()
    }),
    kind("repeated numbers", |random| {
        let number = random.byte_within(0..=LAST_NUMBER);
        renumbered(random, |_| number)
    }),
    kind("falling numbers", |random| {
        renumbered(random, |index| LAST_NUMBER - index)
    }),
    kind("99 or 100 patches", |random| {
        let count = random.pick(&[99, 100]);
        any_masters(random, count).file()
    }),
];

/// How many kinds of old file are hostile.
pub const HOSTILE_OLDS: usize = HOSTILE_OLD_KINDS.len();
/// How many kinds of old file there are.
pub const OLDS: usize = HOSTILE_OLDS + GOOD_OLD_KINDS.len();
/// How many kinds of new file are hostile.
pub const HOSTILE_NEWS: usize = HOSTILE_NEW_KINDS.len();
/// How many kinds of new file there are.
pub const NEWS: usize = HOSTILE_NEWS + GOOD_NEW_KINDS.len();

/// This many consecutive seeds make every kind of old file and every kind of new file.
pub const CYCLE: u64 = 2 * HOSTILE_NEWS as u64;

/// The old file of a seed. Those of odd seeds are good.
#[must_use]
pub fn stored_input(seed: u64) -> Vec<u8> {
    old_of(&mut Random::new(seed), old_kind(seed))
}

/// The new file of a seed. Those of odd seeds are good.
#[must_use]
pub fn stored_new(seed: u64) -> Vec<u8> {
    new_of(&mut Random::new(seed), new_kind(seed))
}

/// The kind of old file that a seed makes.
#[must_use]
pub const fn old_kind(seed: u64) -> usize {
    kind_of(seed, HOSTILE_OLDS, OLDS)
}

/// The kind of new file that a seed makes.
#[must_use]
pub const fn new_kind(seed: u64) -> usize {
    kind_of(seed, HOSTILE_NEWS, NEWS)
}

/// A hostile kind for an even seed, a good one for an odd seed, each in its turn.
const fn kind_of(seed: u64, hostile: usize, all: usize) -> usize {
    let turn = (seed / 2) as usize;
    if seed.is_multiple_of(2) {
        turn % hostile
    } else {
        hostile + turn % (all - hostile)
    }
}

/// The name of a kind of old file.
#[must_use]
pub fn old_name(kind: usize) -> &'static str {
    old_kind_at(kind).name
}

/// The name of a kind of new file.
#[must_use]
pub fn new_name(kind: usize) -> &'static str {
    new_kind_at(kind).name
}

/// An old file of a kind.
pub fn old_of(random: &mut Random, kind: usize) -> Vec<u8> {
    (old_kind_at(kind).make)(random)
}

/// A new file of a kind.
pub fn new_of(random: &mut Random, kind: usize) -> Vec<u8> {
    (new_kind_at(kind).make)(random)
}

fn old_kind_at(kind: usize) -> &'static Kind {
    match kind.checked_sub(HOSTILE_OLDS) {
        Some(good) => &GOOD_OLD_KINDS[good],
        None => &HOSTILE_OLD_KINDS[kind],
    }
}

fn new_kind_at(kind: usize) -> &'static Kind {
    match kind.checked_sub(HOSTILE_NEWS) {
        Some(good) => &GOOD_NEW_KINDS[good],
        None => &HOSTILE_NEW_KINDS[kind],
    }
}

// Old files.

/// The dumps of an old file, and what is put among them.
type Parts = Vec<Vec<u8>>;

/// What a piece adds to a stream.
fn made(random: &mut Random, piece: Piece) -> Vec<u8> {
    let mut out = Vec::new();
    piece(random, &mut out);
    out
}

/// A dump of a patch. Nothing is tested.
fn dump(number: u8, patch: &[u8]) -> Vec<u8> {
    let mut out = Vec::new();
    pieces::dump(opcode::SINGLE_PATCH, number, patch, &mut out);
    out
}

fn master(random: &mut Random) -> Vec<u8> {
    made(random, pieces::master)
}

/// A patch number that is allowed.
fn number(random: &mut Random) -> u8 {
    random.byte_within(0..=LAST_NUMBER)
}

/// A patch whose number isn't allowed.
fn wrong_number(random: &mut Random) -> Vec<u8> {
    let number = random.byte_within(LAST_NUMBER + 1..=0x7F);
    dump(number, &good_patch(random))
}

/// A patch out of range at one place.
fn out_of_range(random: &mut Random) -> Vec<u8> {
    dump(number(random), &one_out_of_range_patch(random))
}

/// A patch with a bus half used.
fn half_used(random: &mut Random) -> Vec<u8> {
    dump(number(random), &half_used_patch(random))
}

/// Dumps of good patches, numbered from 0 or in any way.
fn patches(random: &mut Random, count: usize) -> Parts {
    let in_turn = random.one_in(3);
    let dumps = (0..count).map(|index| {
        let number = if in_turn {
            (index % 100) as u8
        } else {
            number(random)
        };
        dump(number, &good_patch(random))
    });
    dumps.collect()
}

fn few_patches(random: &mut Random) -> Parts {
    let count = random.within(2..=6);
    patches(random, count)
}

fn few_and_master(random: &mut Random) -> Vec<u8> {
    let mut parts = few_patches(random);
    parts.push(master(random));
    parts.concat()
}

/// A few patches, at times with a master behind them.
fn few_parts(random: &mut Random) -> Parts {
    let mut parts = few_patches(random);
    if random.one_in(2) {
        parts.push(master(random));
    }
    parts
}

fn few(random: &mut Random) -> Vec<u8> {
    few_parts(random).concat()
}

/// Puts something before the first dump.
fn before(random: &mut Random, make: Make) -> Vec<u8> {
    [make(random), few(random)].concat()
}

/// Puts something behind the last dump.
fn behind(random: &mut Random, make: Make) -> Vec<u8> {
    [few(random), make(random)].concat()
}

/// Puts something between two dumps.
fn between(random: &mut Random, make: Make) -> Vec<u8> {
    let mut parts = few_parts(random);
    let at = random.within(1..=parts.len() - 1);
    parts.insert(at, make(random));
    parts.concat()
}

/// Puts something before, between or behind the dumps.
fn anywhere(random: &mut Random, make: Make) -> Vec<u8> {
    let mut parts = few_parts(random);
    let at = random.within(0..=parts.len());
    parts.insert(at, make(random));
    parts.concat()
}

/// Puts two things before, between or behind the dumps, one before the other.
fn both(random: &mut Random, first: Make, second: Make) -> Vec<u8> {
    let mut parts = few_parts(random);
    let at = random.within(0..=parts.len());
    parts.insert(at, first(random));
    let at = random.within(at + 1..=parts.len());
    parts.insert(at, second(random));
    parts.concat()
}

/// One byte or a few, none of them F0H.
fn stray_bytes(random: &mut Random) -> Vec<u8> {
    let length = random.pick(&[1, 1, 2, 9]);
    let byte = |_| match random.below(4) {
        0 => random.pick(&[0x00, 0x7F, 0x80, END]),
        1 => random.byte_within(0x80..=0xEF),
        2 => random.byte_within(0xF1..=0xFF),
        _ => random.byte_within(0x00..=0x7F),
    };
    (0..length).map(byte).collect()
}

/// Real time.
fn ticks(random: &mut Random) -> Vec<u8> {
    let length = random.pick(&[1, 1, 2, 9]);
    real_time(random, length)
}

/// An accepted message of another kind.
fn other_message(random: &mut Random) -> Vec<u8> {
    const OTHERS: [Piece; 6] = [
        pieces::edit_buffer,
        pieces::edit_buffer,
        pieces::split,
        pieces::remote_edit,
        pieces::bus_edit,
        operations::operation,
    ];
    let piece = random.pick(&OTHERS);
    made(random, piece)
}

/// A message that gets 4, 5 or 6.
fn foreign_message(random: &mut Random) -> Vec<u8> {
    const FOREIGN: [Piece; 3] = [
        pieces::other_manufacturer,
        pieces::other_device,
        pieces::other_opcode,
    ];
    let piece = random.pick(&FOREIGN);
    made(random, piece)
}

/// What isn't of the form and keeps no number.
fn fault_of_form(random: &mut Random) -> Vec<u8> {
    const FAULTS: [Make; 4] = [stray_bytes, ticks, other_message, foreign_message];
    random.pick(&FAULTS)(random)
}

/// A message that keeps its number. One that breaks off gets 3 or, at the file's end, 2.
fn refused(random: &mut Random) -> Vec<u8> {
    const REFUSED: [Piece; 16] = [
        pieces::cut,
        pieces::cut,
        pieces::noisy_cut,
        pieces::interrupted,
        pieces::wrong_length,
        pieces::bad_number,
        pieces::wide_data,
        pieces::wrong_sum,
        pieces::out_of_range,
        pieces::half_used,
        pieces::any_edit,
        pieces::any_split,
        pieces::replaced,
        pieces::exchanged,
        pieces::high_nibble_moved,
        operations::any_operation,
    ];
    let keeps = |answer| matches!(answer, CUT | INTERRUPTED | WRONG_LENGTH..=HALF_USED);
    loop {
        let piece = random.pick(&REFUSED);
        let message = made(random, piece);
        if reports(&message).any(|report| keeps(report.answer)) {
            return message;
        }
    }
}

fn master_first(random: &mut Random) -> Vec<u8> {
    let mut parts = few_patches(random);
    parts.insert(0, master(random));
    parts.concat()
}

/// A master between patches, at times with another at the end.
fn master_not_last(random: &mut Random) -> Vec<u8> {
    let mut parts = few_parts(random);
    let at = random.within(1..=parts.len() - 1);
    parts.insert(at, master(random));
    parts.concat()
}

/// Two masters or three behind patches or none, the same one or others.
fn two_masters(random: &mut Random) -> Vec<u8> {
    let count = random.below(5);
    let mut parts = patches(random, count);
    parts.push(master(random));
    for _ in 0..random.pick(&[1, 1, 2]) {
        let again = match parts.last() {
            Some(last) if random.one_in(2) => last.clone(),
            _ => master(random),
        };
        parts.push(again);
    }
    parts.concat()
}

/// 101 patches or some more, at times with a master behind them.
fn too_many(random: &mut Random) -> Parts {
    let count = random.pick(&[101, 101, 102, 120]);
    let mut parts = patches(random, count);
    if random.one_in(2) {
        parts.push(master(random));
    }
    parts
}

fn refused_and_too_many(random: &mut Random) -> Vec<u8> {
    let mut parts = too_many(random);
    let at = random.within(0..=parts.len());
    parts.insert(at, refused(random));
    parts.concat()
}

/// 99 or 100 patches, at times with a master behind them, at times with real time inside.
fn nearly_too_many(random: &mut Random) -> Vec<u8> {
    let count = random.pick(&[99, 100]);
    let mut parts = patches(random, count);
    if random.one_in(2) {
        parts.push(master(random));
    }
    if random.one_in(3) {
        let at = random.below(parts.len());
        parts[at] = noisy(random, &parts[at]);
    }
    parts.concat()
}

/// A dump with real time inside.
fn noisy(random: &mut Random, dump: &[u8]) -> Vec<u8> {
    let inside = with_real_time(random, &dump[1..dump.len() - 1]);
    [&[START], &inside[..], &[END]].concat()
}

/// Real time inside all dumps or some.
fn real_time_inside(random: &mut Random) -> Vec<u8> {
    let all = random.one_in(2);
    let mut parts = few_parts(random);
    let one = random.below(parts.len());
    for (index, dump) in parts.iter_mut().enumerate() {
        if all || index == one || random.one_in(3) {
            *dump = noisy(random, dump);
        }
    }
    parts.concat()
}

/// Active Sensing inside every dump.
fn active_sensing_inside(random: &mut Random) -> Vec<u8> {
    let every = random.within(1..=40);
    let parts = few_parts(random).into_iter().map(|dump| {
        let inside = with_active_sensing(&dump[1..dump.len() - 1], every);
        [&[START], &inside[..], &[END]].concat()
    });
    parts.collect::<Parts>().concat()
}

/// The same number for all, at times with the same patch.
fn repeated_numbers(random: &mut Random) -> Vec<u8> {
    let number = number(random);
    let mut patch = good_patch(random);
    let mut parts = Parts::new();
    for _ in 0..random.within(2..=6) {
        if random.one_in(2) {
            patch = good_patch(random);
        }
        parts.push(dump(number, &patch));
    }
    if random.one_in(2) {
        parts.push(master(random));
    }
    parts.concat()
}

/// Numbers that fall by one.
fn falling_numbers(random: &mut Random) -> Vec<u8> {
    let last = random.byte_within(6..=LAST_NUMBER);
    let count = random.byte_within(2..=6);
    let dumps = (0..count).map(|index| dump(last - index, &good_patch(random)));
    dumps.collect::<Parts>().concat()
}

/// As many bytes as a program takes, one fewer or one more.
fn near_the_limit(random: &mut Random) -> usize {
    random.within(LONGEST_INPUT - 1..=LONGEST_INPUT + 1)
}

/// Real time inside one dump makes the file about as long as a program takes.
fn around_the_limit(random: &mut Random) -> Vec<u8> {
    let mut file = few(random);
    let length = near_the_limit(random) - file.len();
    let at = random.within(1..=274);
    file.splice(at..at, real_time(random, length));
    file
}

// Either form.

fn any_bytes(random: &mut Random) -> Vec<u8> {
    let length = random.pick(&[1, 2, 9, 10, 11, 64, 145, 182, 275, 317]);
    bytes(random, length)
}

/// A file without its last bytes.
fn cut(random: &mut Random, make: Make) -> Vec<u8> {
    let mut file = make(random);
    file.truncate(random.below(file.len()));
    file
}

/// A file with a damage anywhere.
fn damaged(random: &mut Random, make: Make) -> Vec<u8> {
    let mut file = make(random);
    let places = 0..file.len();
    Damage::any(random, &file, places).apply(&mut file);
    file
}

// New files.

/// The length of a header.
const HEADER: usize = 10;

/// The five numbers of a header.
type Numbers = [u16; 5];

/// A patch's number and its packed bytes.
type Record = [u8; 1 + PATCH_LENGTH];

/// A new file, right or wrong.
struct New {
    numbers: Numbers,
    patches: Vec<Record>,
    masters: Vec<u8>,
}

impl New {
    /// The numbers are those of so many patches and masters, be they too many.
    fn of(patches: Vec<Record>, masters: Vec<u8>) -> Self {
        let offset = HEADER + patches.len() * size_of::<Record>();
        let count = masters.len() / MASTER_LENGTH;
        let total = offset + masters.len();
        let numbers = [patches.len(), HEADER, count, offset, total].map(|number| number as u16);
        Self {
            numbers,
            patches,
            masters,
        }
    }

    fn header(&self) -> Vec<u8> {
        self.numbers.map(u16::to_le_bytes).concat()
    }

    fn file(&self) -> Vec<u8> {
        [&self.header(), self.patches.as_flattened(), &self.masters].concat()
    }
}

/// A good patch with a number, often one at the ends of the range.
fn record(random: &mut Random) -> Record {
    let mut record = [0; size_of::<Record>()];
    record[0] = match random.below(4) {
        0 => random.pick(&[0, LAST_NUMBER]),
        _ => number(random),
    };
    record[1..].copy_from_slice(&good_patch(random));
    record
}

/// So many good patches.
fn records(random: &mut Random, count: usize) -> New {
    let patches = (0..count).map(|_| record(random)).collect();
    New::of(patches, Vec::new())
}

/// The same with a master.
fn with_master(random: &mut Random, count: usize) -> New {
    let master = bytes(random, MASTER_LENGTH);
    New::of(records(random, count).patches, master)
}

/// The same, at times with a master.
fn any_masters(random: &mut Random, count: usize) -> New {
    if random.one_in(2) {
        with_master(random, count)
    } else {
        records(random, count)
    }
}

/// A few good patches, at times with a master.
fn few_records(random: &mut Random) -> New {
    let count = random.within(2..=6);
    any_masters(random, count)
}

/// A few good patches with other numbers.
fn renumbered(random: &mut Random, number: impl Fn(u8) -> u8) -> Vec<u8> {
    let mut new = few_records(random);
    for (index, record) in (0..).zip(&mut new.patches) {
        record[0] = number(index);
    }
    new.file()
}

/// A file of a few patches whose header has other numbers.
fn misheaded(random: &mut Random, change: fn(&mut Random, &mut Numbers)) -> Vec<u8> {
    let mut new = few_records(random);
    change(random, &mut new.numbers);
    new.file()
}

/// A number one more or one less.
fn one_off(random: &mut Random, numbers: &mut Numbers) {
    let number = &mut numbers[random.below(5)];
    *number = number.wrapping_add(random.pick(&[1, u16::MAX]));
}

/// A number with its high byte first; one that isn't the same then.
fn bytes_exchanged(random: &mut Random, numbers: &mut Numbers) {
    loop {
        let number = &mut numbers[random.below(5)];
        if *number != number.swap_bytes() {
            *number = number.swap_bytes();
            return;
        }
    }
}

/// A total that is off by a byte, a few, or a part of the file.
fn other_total(random: &mut Random, numbers: &mut Numbers) {
    let off = random.pick(&[1, 2, 10, 134, 135, 172, 256]);
    numbers[4] = if random.one_in(2) {
        numbers[4] + off
    } else {
        numbers[4].wrapping_sub(off)
    };
}

/// Another value for a number: any, an end of the range, or one with the same low byte.
fn any_number(random: &mut Random, numbers: &mut Numbers) {
    let number = &mut numbers[random.below(5)];
    let old = *number;
    while *number == old {
        *number = match random.below(4) {
            0 => random.pick(&[0, 1, 2, 100, 101, u16::MAX]),
            1 => old ^ u16::from(random.byte()) << 8,
            _ => random.draw() as u16,
        };
    }
}

fn no_offset_of_no_master(random: &mut Random) -> Vec<u8> {
    let count = random.below(4);
    let mut new = records(random, count);
    new.numbers[3] = 0;
    new.file()
}

fn no_offset_of_no_patches(random: &mut Random) -> Vec<u8> {
    let mut new = any_masters(random, 0);
    new.numbers[1] = 0;
    new.file()
}

/// A byte added at the end, or the last one taken away; at times the total says so too.
fn longer_or_shorter(random: &mut Random) -> Vec<u8> {
    let count = random.below(4);
    let mut new = any_masters(random, count);
    let longer = random.one_in(2);
    if random.one_in(2) {
        let off = if longer { 1 } else { u16::MAX };
        new.numbers[4] = new.numbers[4].wrapping_add(off);
    }
    let mut file = new.file();
    if longer {
        file.push(random.byte());
    } else {
        file.pop();
    }
    file
}

/// A patch or a master more than the header says, or one fewer.
fn more_or_fewer(random: &mut Random) -> Vec<u8> {
    let mut new = few_records(random);
    match random.below(4) {
        0 => new.patches.push(record(random)),
        1 => {
            new.patches.pop();
        }
        2 => new.masters.extend(bytes(random, MASTER_LENGTH)),
        _ if new.masters.is_empty() => new.numbers = with_master(random, new.patches.len()).numbers,
        _ => new.masters.clear(),
    }
    new.file()
}

fn two_master_records(random: &mut Random) -> Vec<u8> {
    let count = random.below(4);
    let patches = records(random, count).patches;
    New::of(patches, bytes(random, 2 * MASTER_LENGTH)).file()
}

/// The master before the patches, and the offsets say so.
fn master_record_first(random: &mut Random) -> Vec<u8> {
    let count = random.within(1..=4);
    let mut new = with_master(random, count);
    let behind = HEADER + MASTER_LENGTH;
    (new.numbers[1], new.numbers[3]) = (behind as u16, HEADER as u16);
    [&new.header(), &new.masters, new.patches.as_flattened()].concat()
}

/// Makes a record bad.
type Spoil = fn(&mut Random, &mut Record);

/// 100 to 255.
fn spoil_number(random: &mut Random, record: &mut Record) {
    record[0] = match random.below(3) {
        0 => random.pick(&[LAST_NUMBER + 1, 0x7F, 0x80, u8::MAX]),
        _ => random.byte_within(LAST_NUMBER + 1..=u8::MAX),
    };
}

/// A byte out of range at a place, each as often as the others.
fn spoil_field(random: &mut Random, record: &mut Record) {
    let place = random.below(PATCH_LENGTH);
    record[1 + place] = bad_byte(random, place);
}

fn spoil_bus(random: &mut Random, record: &mut Record) {
    let bus = 1 + BUSES + 3 * random.below(10);
    (record[bus], record[bus + 2]) = half_used_bus(random);
}

/// Two of these or all.
fn spoil_all(random: &mut Random, record: &mut Record) {
    let spared = random.below(4);
    for (index, spoil) in SPOILS.iter().enumerate() {
        if index != spared {
            spoil(random, record);
        }
    }
}

const SPOILS: [Spoil; 3] = [spoil_bus, spoil_field, spoil_number];

fn one_bad(random: &mut Random, spoil: Spoil) -> Vec<u8> {
    let mut new = few_records(random);
    let at = random.below(new.patches.len());
    spoil(random, &mut new.patches[at]);
    new.file()
}

/// Two to four faults, each in any of the records.
fn spoil_some(random: &mut Random, patches: &mut [Record]) {
    for _ in 0..random.within(2..=4) {
        let at = random.below(patches.len());
        random.pick(&SPOILS)(random, &mut patches[at]);
    }
}

fn several_bad(random: &mut Random) -> Vec<u8> {
    let mut new = few_records(random);
    spoil_some(random, &mut new.patches);
    new.file()
}

fn bad_behind_bad_header(random: &mut Random) -> Vec<u8> {
    let mut new = few_records(random);
    spoil_some(random, &mut new.patches);
    one_off(random, &mut new.numbers);
    new.file()
}

/// One bad record of 99 or 100, often the last.
fn bad_of_many(random: &mut Random) -> Vec<u8> {
    let count = random.pick(&[99, 100]);
    let mut new = any_masters(random, count);
    let any = random.below(count);
    let at = random.pick(&[any, count - 1]);
    random.pick(&SPOILS)(random, &mut new.patches[at]);
    new.file()
}

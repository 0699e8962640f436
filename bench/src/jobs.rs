//! The jobs. Each is done once by the library and once by the second program's own routines, and
//! both give a number made of the answers and of bytes of what was written.

use std::hint::black_box;

use compare::ffi::{self, A_CALL};
use compare::word;
use reference::streams::plans::{self, Pair};
use reference::streams::{inputs, Random};
use reference::{
    parameter_of, CableReader, Fed, Unit, BANK_PATCHES, LONGEST_PLAN, PATCH_LENGTH, SPLIT_LENGTH,
};

/// A job in both ways.
pub struct Job {
    pub name: &'static str,
    /// How much one pass does, in bytes, values or edits.
    pub amount: usize,
    /// What a million of them in a second is called.
    pub unit: &'static str,
    pub library: Box<dyn FnMut() -> usize>,
    pub plain: Box<dyn FnMut() -> usize>,
}

const SEED: u64 = 1000;
/// The sizes of the streams. Random bytes are long enough that no processor learns its branches by heart; F0H
/// only has far more reports to a byte.
const BANKS: usize = 1 << 16;
const SPLITS: usize = 1 << 16;
const OPERATIONS: usize = 1 << 16;
const NOISE: usize = 1 << 20;
const STARTS: usize = 1 << 14;
/// How many patches are tested and edits are applied in a pass.
const MANY: usize = 100;
/// How many splits a unit has: as many are tested and written in a pass.
const UNIT_SPLITS: usize = 50;
/// The length of a split dump.
const SPLIT_DUMP: usize = 43;
/// How many operations there are of each of the five kinds, and the length of one of each.
const EACH: usize = MANY / 5;
const FIVE: usize = 7 + 7 + 6 + 5 + 8;
/// How many edits make a patch another in every parameter and every bus.
const PARTS: usize = 96 + 10;

pub fn all() -> [Job; 29] {
    let mut random = Random::new(SEED);
    let bank = good_patches(&mut random, BANK_PATCHES);
    let banks: Vec<u8> = bank_dumps(&bank).into_iter().cycle().take(BANKS).collect();
    let sensing = |every| inputs::with_active_sensing(&banks, every);
    let (often, seldom) = (sensing(3), sensing(16));
    let noise = inputs::bytes(&mut random, NOISE);
    let starts = vec![0xF0; STARTS];
    let patches = good_patches(&mut random, MANY);
    let edits = (0..MANY).map(|_| inputs::good_edit(&mut random)).collect();
    let bus_edits = (0..MANY)
        .map(|_| inputs::good_bus_edit(&mut random))
        .collect();
    let patch = inputs::good_patch(&mut random);
    let apart = plans::all_apart(&mut random);
    let splits = good_splits(&mut random, UNIT_SPLITS);
    let split_dumps: Vec<u8> = split_dumps(&splits)
        .into_iter()
        .cycle()
        .take(SPLITS)
        .collect();
    let operations = (0..EACH).map(|_| Five::good(&mut random)).collect();
    let operation_stream = operation_stream(&mut random);
    [
        reports("reports-banks", banks.clone()),
        reports("reports-sensing-16", seldom),
        reports("reports-sensing-3", often),
        reports("reports-noise", noise.clone()),
        reports("reports-starts", starts),
        read("read-banks", banks.clone(), PATCH_LENGTH),
        read("read-splits", split_dumps, SPLIT_LENGTH),
        read_operations(operation_stream.clone()),
        cable("cable-dumps-1", banks.clone(), 1, in_place),
        cable("cable-dumps-16", banks.clone(), 16, in_place),
        cable("cable-dumps-256", banks.clone(), 256, in_place),
        cable("cable-dumps-4096", banks.clone(), 4096, in_place),
        cable("cable-noise-16", noise.clone(), 16, in_place),
        cable("cable-by-value-1", banks.clone(), 1, by_value),
        cable("cable-by-value-16", banks.clone(), 16, by_value),
        cable("cable-by-value-256", banks.clone(), 256, by_value),
        cable("cable-by-value-4096", banks, 4096, by_value),
        cable("cable-by-value-noise-16", noise, 16, by_value),
        test_patch(patches),
        test_split(splits.clone()),
        values(patch),
        write_bank(bank),
        write_splits(splits),
        write_operations(operations),
        unit_steps(operation_stream),
        apply_edits(patch, edits),
        apply_bus_edits(patch, bus_edits),
        plan(apart.clone()),
        check_plan(apart),
    ]
}

fn good_patches(random: &mut Random, count: usize) -> Vec<u8> {
    (0..count)
        .flat_map(|_| inputs::good_patch(random))
        .collect()
}

fn bank_dumps(bank: &[u8]) -> Vec<u8> {
    let mut dumps = vec![0; 275 * BANK_PATCHES];
    let written = reference::write_bank(bank, &mut dumps);
    assert_eq!(written.answer, 0, "good patches");
    dumps
}

fn good_splits(random: &mut Random, count: usize) -> Vec<u8> {
    (0..count)
        .flat_map(|_| inputs::good_split(random))
        .collect()
}

/// Splits dumped with numbers from 0 on.
fn split_dumps(splits: &[u8]) -> Vec<u8> {
    let splits = splits.chunks_exact(SPLIT_LENGTH);
    let mut dumps = vec![0; SPLIT_DUMP * splits.len()];
    for ((number, split), dump) in (0..).zip(splits).zip(dumps.chunks_exact_mut(SPLIT_DUMP)) {
        let written = reference::write_split(number, split, dump);
        assert_eq!(written.answer, 0, "good splits");
    }
    dumps
}

/// The bytes of an operation of each kind, but for unlock, which has none.
#[derive(Clone)]
struct Five {
    request: [u8; 2],
    group: [u8; 2],
    bank: [u8; 1],
    store: [u8; 3],
}

impl Five {
    fn good(random: &mut Random) -> Self {
        Self {
            request: inputs::good_request(random),
            group: inputs::good_group(random),
            bank: inputs::good_bank_number(random),
            store: inputs::good_store(random),
        }
    }
}

/// Operations of all five kinds in any order, each accepted, as many as fit.
fn operation_stream(random: &mut Random) -> Vec<u8> {
    let mut stream = Vec::with_capacity(OPERATIONS);
    loop {
        let five = Five::good(random);
        let mut message = [0; 8];
        let out = &mut message[..];
        let [number, bank, id] = five.store;
        let written = match random.below(5) {
            0 => reference::write_request_data(five.request[0], five.request[1], out),
            1 => reference::write_group_mode(five.group[0], five.group[1], out),
            2 => reference::write_set_bank(five.bank[0], out),
            3 => reference::write_unlock_bank(out),
            _ => reference::write_store_edit_buffer(number, bank, id, out),
        };
        assert_eq!(written.answer, 0, "good operations");
        if stream.len() + written.detail > OPERATIONS {
            return stream;
        }
        stream.extend_from_slice(&message[..written.detail]);
    }
}

/// Adds a result to those so far.
fn add(all: usize, result: usize) -> usize {
    all.rotate_left(1) ^ result
}

/// The reports of a stream: the library's in calls of eight, the second program's by its iterator.
fn reports(name: &'static str, input: Vec<u8>) -> Job {
    let other = input.clone();
    Job {
        name,
        amount: input.len(),
        unit: "MB/s",
        library: Box::new(move || {
            let input = black_box(input.as_slice());
            let mut room = [ffi::EMPTY; A_CALL];
            let (mut all, mut place) = (0, 0);
            loop {
                let made = ffi::reports(input, place, room.as_flattened_mut());
                // The end of the last is the place to go on from, and known before the call is over.
                for &[start, end, answer, detail, value, noise] in &room[..made.count] {
                    all = add(all, start ^ end ^ answer ^ detail ^ value ^ noise);
                    place = end;
                }
                if made.count == 0 {
                    return all;
                }
            }
        }),
        plain: Box::new(move || {
            reference::reports(black_box(other.as_slice())).fold(0, |all, r| {
                let outcome = one(r.answer, r.detail, r.value);
                add(all, r.start ^ r.end ^ outcome ^ r.noise)
            })
        }),
    }
}

/// Every record of a stream of dumps, each of so many packed bytes, into one buffer.
fn read(name: &'static str, input: Vec<u8>, packed: usize) -> Job {
    let other = input.clone();
    let (mut buffer, mut other_buffer) = ([0; 172], [0; 172]);
    Job {
        name,
        amount: input.len(),
        unit: "MB/s",
        library: Box::new(move || {
            let input = black_box(input.as_slice());
            let (mut all, mut place) = (0, 0);
            loop {
                let r = ffi::read(input, place, &mut buffer);
                let outcome = r.report.outcome;
                if outcome.answer == 1 {
                    return add(all, usize::from(buffer[packed - 1]));
                }
                black_box(&buffer);
                let [first, ..] = r.bytes;
                let places = r.report.start ^ r.report.end ^ r.report.noise;
                all = add(all, places ^ library(outcome) ^ usize::from(first));
                place = r.report.end;
            }
        }),
        plain: Box::new(move || {
            let input = black_box(other.as_slice());
            let (mut all, mut place) = (0, 0);
            loop {
                let r = reference::read(input, place, &mut other_buffer);
                if r.answer == 1 {
                    return add(all, usize::from(other_buffer[packed - 1]));
                }
                black_box(&other_buffer);
                let [first, ..] = r.bytes;
                let outcome = one(r.answer, r.detail, r.value);
                let places = r.start ^ r.end ^ r.noise;
                all = add(all, places ^ outcome ^ usize::from(first));
                place = r.end;
            }
        }),
    }
}

/// Every record of a stream of operations, which need no buffer.
fn read_operations(input: Vec<u8>) -> Job {
    let other = input.clone();
    Job {
        name: "read-operations",
        amount: input.len(),
        unit: "MB/s",
        library: Box::new(move || {
            let input = black_box(input.as_slice());
            let (mut all, mut place) = (0, 0);
            loop {
                let r = ffi::read(input, place, &mut []);
                let outcome = r.report.outcome;
                if outcome.answer == 1 {
                    return all;
                }
                let places = r.report.start ^ r.report.end ^ r.report.noise;
                all = add(all, places ^ library(outcome) ^ four(r.bytes));
                place = r.report.end;
            }
        }),
        plain: Box::new(move || {
            let input = black_box(other.as_slice());
            let (mut all, mut place) = (0, 0);
            loop {
                let r = reference::read(input, place, &mut []);
                if r.answer == 1 {
                    return all;
                }
                let outcome = one(r.answer, r.detail, r.value);
                let places = r.start ^ r.end ^ r.noise;
                all = add(all, places ^ outcome ^ four(r.bytes));
                place = r.end;
            }
        }),
    }
}

/// A unit stepped through a stream of operations.
fn unit_steps(input: Vec<u8>) -> Job {
    let other = input.clone();
    Job {
        name: "unit-steps",
        amount: input.len(),
        unit: "MB/s",
        library: Box::new(move || {
            let input = black_box(input.as_slice());
            let (mut all, mut place) = (0, 0);
            let mut unit = black_box(ffi::Unit::default());
            loop {
                let step = ffi::unit_step(unit, input, place);
                let ffi::Report {
                    start,
                    end,
                    outcome,
                    noise,
                } = step.report;
                if outcome.answer == 1 {
                    return all;
                }
                unit = step.unit;
                let state = [
                    unit.bank,
                    unit.locked.into(),
                    unit.grouped.into(),
                    unit.number,
                ];
                let told = start ^ end ^ noise ^ library(outcome) ^ four(state);
                let sent = if step.count > 0 { seven(step.sent) } else { 0 };
                all = add(all, told ^ usize::from(step.meant) ^ sent);
                place = end;
            }
        }),
        plain: Box::new(move || {
            let input = black_box(other.as_slice());
            let (mut all, mut place) = (0, 0);
            let mut unit = black_box(Unit::default());
            loop {
                let step = unit.step(input, place);
                let r = step.report;
                if r.answer == 1 {
                    return all;
                }
                unit = step.unit;
                let state = [
                    unit.bank,
                    unit.locked.into(),
                    unit.group.is_some().into(),
                    unit.group.unwrap_or(0),
                ];
                let outcome = one(r.answer, r.detail, r.value);
                let told = r.start ^ r.end ^ r.noise ^ outcome ^ four(state);
                let sent = step.sent.map_or(0, seven);
                all = add(all, told ^ usize::from(step.meant) ^ sent);
                place = r.end;
            }
        }),
    }
}

/// Plain Rust's reader is fed where it is.
fn in_place(reader: &mut CableReader, piece: &[u8]) -> Fed {
    reader.feed(piece)
}

/// Plain Rust's reader in the library's form: its record goes in by value and comes back.
#[inline(never)]
fn by_value(reader: &mut CableReader, piece: &[u8]) -> Fed {
    let (next, fed) = step(reader.clone(), piece);
    *reader = next;
    fed
}

fn step(mut reader: CableReader, piece: &[u8]) -> (CableReader, Fed) {
    let fed = reader.feed(piece);
    (reader, fed)
}

/// A stream straight from the cable in pieces of one size, bytes not taken being fed again. Every packed
/// byte of a dump is read.
fn cable(
    name: &'static str,
    input: Vec<u8>,
    size: usize,
    feed: impl Fn(&mut CableReader, &[u8]) -> Fed + 'static,
) -> Job {
    let other = input.clone();
    Job {
        name,
        amount: input.len(),
        unit: "MB/s",
        library: Box::new(move || {
            let mut record = ffi::cable_fresh();
            let mut all = 0;
            for mut piece in black_box(input.as_slice()).chunks(size) {
                while !piece.is_empty() {
                    let fed = ffi::cable_feed(&mut record, piece);
                    piece = &piece[fed.taken..];
                    if fed.ended {
                        let packed = added(&record.bytes[..record.count]);
                        all = add(all, reading(fed.reading) ^ packed);
                    }
                }
            }
            add(all, reading(ffi::cable_end(&mut record).reading))
        }),
        plain: Box::new(move || {
            let mut reader = CableReader::new();
            let mut all = 0;
            for mut piece in black_box(other.as_slice()).chunks(size) {
                while !piece.is_empty() {
                    let fed = feed(&mut reader, piece);
                    piece = &piece[fed.taken..];
                    if fed.ended {
                        let packed = added(reader.packed());
                        all = add(all, plain_reading(fed) ^ packed);
                    }
                }
            }
            add(all, plain_reading(reader.end()))
        }),
    }
}

/// Good patches, tested one by one.
fn test_patch(patches: Vec<u8>) -> Job {
    let other = patches.clone();
    Job {
        name: "test-patch",
        amount: patches.len(),
        unit: "MB/s",
        library: Box::new(move || {
            let patches = black_box(patches.as_slice()).chunks_exact(PATCH_LENGTH);
            patches.fold(0, |all, patch| add(all, library(ffi::test_patch(patch))))
        }),
        plain: Box::new(move || {
            let patches = black_box(other.as_slice()).chunks_exact(PATCH_LENGTH);
            patches.fold(0, |all, patch| {
                add(all, plain(reference::test_patch(patch)))
            })
        }),
    }
}

/// Good splits, tested one by one.
fn test_split(splits: Vec<u8>) -> Job {
    let other = splits.clone();
    Job {
        name: "test-split",
        amount: splits.len(),
        unit: "MB/s",
        library: Box::new(move || {
            let splits = black_box(splits.as_slice()).chunks_exact(SPLIT_LENGTH);
            splits.fold(0, |all, split| add(all, library(ffi::test_split(split))))
        }),
        plain: Box::new(move || {
            let splits = black_box(other.as_slice()).chunks_exact(SPLIT_LENGTH);
            splits.fold(0, |all, split| {
                add(all, plain(reference::test_split(split)))
            })
        }),
    }
}

/// The value of every parameter in a patch, which is tested for each.
fn values(patch: [u8; PATCH_LENGTH]) -> Job {
    let parameters: Vec<u8> = (0..=255).filter_map(parameter_of).collect();
    let other = parameters.clone();
    Job {
        name: "values",
        amount: parameters.len(),
        unit: "million values/s",
        library: Box::new(move || {
            let patch = black_box(&patch);
            black_box(&parameters).iter().fold(0, |all, &parameter| {
                let held = ffi::value_of(patch, parameter);
                add(all, library(held.outcome) ^ word(held.value))
            })
        }),
        plain: Box::new(move || {
            let patch = black_box(&patch);
            black_box(&other).iter().fold(0, |all, &parameter| {
                let held = reference::value_of(patch, parameter);
                let outcome = one(held.answer, held.detail, held.value);
                add(all, outcome ^ word(held.held))
            })
        }),
    }
}

/// A hundred patches into one output.
fn write_bank(bank: Vec<u8>) -> Job {
    let other = bank.clone();
    let mut out = vec![0; 275 * BANK_PATCHES];
    let mut other_out = out.clone();
    Job {
        name: "write-bank",
        amount: out.len(),
        unit: "MB/s",
        library: Box::new(move || {
            let written = ffi::write_bank(black_box(&bank), black_box(&mut out));
            library(written.outcome) ^ written.place ^ usize::from(out[273])
        }),
        plain: Box::new(move || {
            let written = reference::write_bank(black_box(&other), black_box(&mut other_out));
            let outcome = one(written.answer, written.detail, written.value);
            outcome ^ written.place ^ usize::from(other_out[273])
        }),
    }
}

/// Fifty splits, numbered from 0 on, each to its own place in one output.
fn write_splits(splits: Vec<u8>) -> Job {
    let other = splits.clone();
    let mut out = vec![0; SPLIT_DUMP * UNIT_SPLITS];
    let mut other_out = out.clone();
    Job {
        name: "write-split",
        amount: out.len(),
        unit: "MB/s",
        library: Box::new(move || {
            each_written(&splits, &mut out, |number, split, dump| {
                library(ffi::write_split(number, split, dump))
            })
        }),
        plain: Box::new(move || {
            each_written(&other, &mut other_out, |number, split, dump| {
                plain(reference::write_split(number, split, dump))
            })
        }),
    }
}

/// Writes splits, each to its own place. Their sums are among what is given.
fn each_written(
    splits: &[u8],
    out: &mut [u8],
    write: impl Fn(u8, &[u8], &mut [u8]) -> usize,
) -> usize {
    let splits = black_box(splits).chunks_exact(SPLIT_LENGTH);
    let dumps = black_box(out).chunks_exact_mut(SPLIT_DUMP);
    (0..)
        .zip(splits)
        .zip(dumps)
        .fold(0, |all, ((number, split), dump)| {
            let outcome = write(number, split, dump);
            add(all, outcome ^ usize::from(dump[SPLIT_DUMP - 2]))
        })
}

/// A hundred operations, one behind the other into one output.
fn write_operations(operations: Vec<Five>) -> Job {
    let other = operations.clone();
    let mut out = vec![0; FIVE * operations.len()];
    let mut other_out = out.clone();
    Job {
        name: "write-operations",
        amount: MANY,
        unit: "million messages/s",
        library: Box::new(move || {
            let put = |outcome: ffi::Outcome| (library(outcome), outcome.detail);
            each_five_written(&operations, &mut out, |five, behind| {
                let ([wanted, patch], [total, unit]) = (five.request, five.group);
                let ([bank], [number, to, id]) = (five.bank, five.store);
                behind.put(|out| put(ffi::write_request_data(wanted, patch, out)));
                behind.put(|out| put(ffi::write_group_mode(total, unit, out)));
                behind.put(|out| put(ffi::write_set_bank(bank, out)));
                behind.put(|out| put(ffi::write_unlock_bank(out)));
                behind.put(|out| put(ffi::write_store_edit_buffer(number, to, id, out)));
            })
        }),
        plain: Box::new(move || {
            let put = |outcome: reference::Outcome| (plain(outcome), outcome.detail);
            each_five_written(&other, &mut other_out, |five, behind| {
                let ([wanted, patch], [total, unit]) = (five.request, five.group);
                let ([bank], [number, to, id]) = (five.bank, five.store);
                behind.put(|out| put(reference::write_request_data(wanted, patch, out)));
                behind.put(|out| put(reference::write_group_mode(total, unit, out)));
                behind.put(|out| put(reference::write_set_bank(bank, out)));
                behind.put(|out| put(reference::write_unlock_bank(out)));
                behind.put(|out| put(reference::write_store_edit_buffer(number, to, id, out)));
            })
        }),
    }
}

/// An output that messages go into one behind the other, and their results so far.
struct Behind<'o> {
    out: &'o mut [u8],
    place: usize,
    all: usize,
}

impl Behind<'_> {
    /// Writes a message behind the last one, which gives a number and its length.
    fn put(&mut self, write: impl FnOnce(&mut [u8]) -> (usize, usize)) {
        let (told, length) = write(&mut self.out[self.place..]);
        self.all = add(self.all, told);
        self.place += length;
    }
}

/// Writes an operation of each kind, and again. The last ID is among what is given.
fn each_five_written(
    operations: &[Five],
    out: &mut [u8],
    write: impl Fn(&Five, &mut Behind),
) -> usize {
    let (place, all) = (0, 0);
    let out = black_box(out);
    let mut behind = Behind { out, place, all };
    for five in black_box(operations) {
        write(five, &mut behind);
    }
    add(behind.all, behind.out[behind.place - 2].into())
}

/// Remote edits, one after the other on one patch.
fn apply_edits(mut patch: [u8; PATCH_LENGTH], edits: Vec<[u8; 2]>) -> Job {
    let other = edits.clone();
    let mut other_patch = patch;
    Job {
        name: "apply-edits",
        amount: edits.len(),
        unit: "million edits/s",
        library: Box::new(move || {
            let patch = black_box(&mut patch);
            let all = black_box(&edits)
                .iter()
                .fold(0, |all, &[parameter, value]| {
                    add(all, library(ffi::apply_edit(patch, parameter, value)))
                });
            sum(all, patch)
        }),
        plain: Box::new(move || {
            let patch = black_box(&mut other_patch);
            let all = black_box(&other)
                .iter()
                .fold(0, |all, &[parameter, value]| {
                    add(all, plain(reference::apply_edit(patch, parameter, value)))
                });
            sum(all, patch)
        }),
    }
}

/// Matrix modulation edits, one after the other on one patch.
fn apply_bus_edits(mut patch: [u8; PATCH_LENGTH], edits: Vec<[u8; 4]>) -> Job {
    let other = edits.clone();
    let mut other_patch = patch;
    Job {
        name: "apply-bus-edits",
        amount: edits.len(),
        unit: "million edits/s",
        library: Box::new(move || {
            let patch = black_box(&mut patch);
            let all = black_box(&edits).iter().fold(0, |all, &edit| {
                add(all, library(ffi::apply_bus_edit(patch, edit)))
            });
            sum(all, patch)
        }),
        plain: Box::new(move || {
            let patch = black_box(&mut other_patch);
            let all = black_box(&other).iter().fold(0, |all, &edit| {
                let [bus, source, amount, destination] = edit;
                let applied = reference::apply_bus_edit(patch, bus, source, amount, destination);
                add(all, plain(applied))
            });
            sum(all, patch)
        }),
    }
}

/// The list for two patches that differ in all 96 parameters and all ten buses.
fn plan([a, b]: Pair) -> Job {
    let [other_a, other_b] = [a.clone(), b.clone()];
    let (mut out, mut other_out) = ([0; LONGEST_PLAN], [0; LONGEST_PLAN]);
    Job {
        name: "plan",
        amount: PARTS,
        unit: "million edits/s",
        library: Box::new(move || {
            let planned = ffi::plan(black_box(&a), black_box(&b), black_box(&mut out));
            library(planned) ^ usize::from(out[LONGEST_PLAN - 2])
        }),
        plain: Box::new(move || {
            let (a, b) = (black_box(&other_a), black_box(&other_b));
            let planned = reference::plan(a, b, black_box(&mut other_out));
            plain(planned) ^ usize::from(other_out[LONGEST_PLAN - 2])
        }),
    }
}

/// The same list, checked.
fn check_plan([a, b]: Pair) -> Job {
    let mut list = [0; LONGEST_PLAN];
    let planned = reference::plan(&a, &b, &mut list);
    assert_eq!(planned.detail, LONGEST_PLAN, "all parts differ");
    let [other_a, other_b] = [a.clone(), b.clone()];
    Job {
        name: "check-plan",
        amount: PARTS,
        unit: "million edits/s",
        library: Box::new(move || {
            library(ffi::check_plan(
                black_box(&a),
                black_box(&b),
                black_box(&list),
            ))
        }),
        plain: Box::new(move || {
            let (a, b) = (black_box(&other_a), black_box(&other_b));
            plain(reference::check_plan(a, b, black_box(&list)))
        }),
    }
}

/// The numbers of an outcome as one.
fn one(answer: u8, detail: usize, value: i16) -> usize {
    usize::from(answer) ^ detail ^ word(value)
}

/// The library's outcome as one number.
fn library(outcome: ffi::Outcome) -> usize {
    one(outcome.answer, outcome.detail, outcome.value)
}

/// The second program's.
fn plain(outcome: reference::Outcome) -> usize {
    one(outcome.answer, outcome.detail, outcome.value)
}

/// What the library tells of a message as one number.
fn reading(reading: ffi::Reading) -> usize {
    let ffi::Report {
        start,
        end,
        outcome,
        noise,
    } = reading.report;
    let [first, ..] = reading.bytes;
    start ^ end ^ library(outcome) ^ noise ^ usize::from(first)
}

/// What the second program's reader tells of it.
fn plain_reading(fed: Fed) -> usize {
    let r = fed.report;
    let [first, ..] = fed.bytes;
    let outcome = one(r.answer, r.detail, r.value);
    r.start ^ r.end ^ outcome ^ r.noise ^ usize::from(first)
}

/// Four bytes as one number.
fn four(bytes: [u8; 4]) -> usize {
    u32::from_le_bytes(bytes) as usize
}

/// A message of seven bytes as one number.
fn seven([a, b, c, d, e, f, g]: [u8; 7]) -> usize {
    u64::from_le_bytes([a, b, c, d, e, f, g, 0]) as usize
}

/// All bytes added up.
fn added(bytes: &[u8]) -> usize {
    bytes.iter().map(|&byte| usize::from(byte)).sum()
}

/// Adds a patch's bytes to the results.
fn sum(all: usize, patch: &[u8]) -> usize {
    patch.iter().fold(all, |all, &byte| add(all, byte.into()))
}

//! The streams that seeds make.

use std::collections::{BTreeMap, BTreeSet};

use reference::streams::damage::{damageable, Damage};
use reference::streams::{inputs, kind_of, stream, Random, CYCLE};
use reference::{
    apply_bus_edit, apply_edit, nibbles, reports, test_patch, test_split, walk, write_bank,
    write_patch, Outcome, Report,
};

use crate::kit::{less_real_time, outcome, report_outcome, written, P};
use crate::model::{self, Field};

#[test]
fn a_seed_always_makes_the_same_stream() {
    for seed in [0, 1, CYCLE - 1, 12_345, u64::MAX] {
        assert_eq!(stream(seed), stream(seed));
    }
    assert_ne!(stream(1), stream(1 + CYCLE));
}

#[test]
fn consecutive_seeds_cover_every_kind_and_size() {
    for from in [0, 57, 1_000_000] {
        let seeds = from..from + CYCLE;
        let kinds: BTreeSet<_> = seeds.clone().map(kind_of).collect();
        assert_eq!(kinds.len(), 56);
        let lengths: Vec<_> = seeds.map(|seed| stream(seed).len()).collect();
        for size in [65_535, 65_536, 65_537] {
            assert_eq!(lengths.iter().filter(|&&length| length == size).count(), 1);
        }
        let small = lengths.iter().filter(|&&length| length < 20_000).count();
        assert_eq!(small + 3, lengths.len());
    }
}

#[test]
fn every_answer_of_the_walk_is_met() {
    let mut answers = BTreeSet::new();
    let mut opcodes = BTreeSet::new();
    for seed in 0..3 * CYCLE {
        for report in reports(&stream(seed)) {
            answers.insert(report.answer);
            if report.answer == 0 {
                opcodes.insert(report.detail);
            }
        }
    }
    assert_eq!(answers, [0].into_iter().chain(2..=12).collect());
    let expected = [1, 2, 3, 4, 6, 7, 10, 11, 12, 13, 14];
    assert_eq!(opcodes, expected.into_iter().collect());
}

#[test]
fn good_and_bad_patches_are_what_they_say() {
    let mut random = Random::new(40);
    let mut lengths = BTreeSet::new();
    for _ in 0..20_000 {
        assert_eq!(test_patch(&inputs::good_patch(&mut random)), outcome(0, 0));
        assert_eq!(
            test_patch(&inputs::out_of_range_patch(&mut random)).answer,
            11
        );
        assert_eq!(
            test_patch(&inputs::one_out_of_range_patch(&mut random)).answer,
            11
        );
        assert_eq!(test_patch(&inputs::half_used_patch(&mut random)).answer, 12);
        assert!([11, 12].contains(&test_patch(&inputs::bad_patch(&mut random)).answer));
        lengths.insert(inputs::patch(&mut random).len());
    }
    assert!(lengths.is_superset(&[0, 133, 134, 135].into_iter().collect()));
}

/// The destinations that an answer to a patch is about: all ten, the one out of range, or that of
/// the bus half used.
fn destinations(patch: &[u8], tested: Outcome) -> Vec<u8> {
    let places: Vec<usize> = (106..134).step_by(3).collect();
    match (tested.answer, tested.detail) {
        (0, _) => places.iter().map(|&place| patch[place]).collect(),
        (11, place) if places.contains(&place) => vec![patch[place]],
        (12, bus) => vec![patch[places[bus]]],
        _ => vec![],
    }
}

/// The same of an edit.
fn destination([bus, _, _, destination]: [u8; 4], tested: Outcome) -> Option<u8> {
    let place = 106 + 3 * usize::from(bus);
    let about = match tested.answer {
        0 | 12 => true,
        11 => tested.detail == place,
        _ => false,
    };
    about.then_some(destination)
}

/// Answers and destinations to be met: the last one taken, the last one on a bus half used, and the
/// next refused.
const MET: [(u8, u8); 3] = [(0, 32), (12, 32), (11, 33)];

#[test]
fn streams_reach_the_last_destination_and_the_next() {
    let mut found = BTreeSet::new();
    for seed in 0..40 * CYCLE {
        let input = stream(seed);
        for report in reports(&input) {
            let message = less_real_time(&input[report.start..report.end]);
            let tested = report_outcome(&report);
            match message[..] {
                [0xF0, 0x10, 0x06, 0x0B, a, b, c, d, 0xF7] => {
                    let edit = destination([a, b, c, d], tested);
                    found.extend(edit.map(|code| (0x0B, report.answer, code)));
                }
                [0xF0, 0x10, 0x06, opcode @ (0x01 | 0x0D), _, ref data @ .., _, 0xF7]
                    if data.len() == 268 =>
                {
                    let mut patch = [0; 134];
                    nibbles::pack(data, &mut patch);
                    let codes = destinations(&patch, tested);
                    found.extend(codes.iter().map(|&code| (opcode, report.answer, code)));
                }
                _ => {}
            }
        }
    }
    for (answer, code) in MET {
        for opcode in [0x01, 0x0B, 0x0D] {
            assert!(found.contains(&(opcode, answer, code)), "{opcode} {code}");
        }
    }
}

#[test]
fn inputs_reach_the_last_destination_and_the_next() {
    let mut random = Random::new(41);
    let (mut patches, mut edits) = (BTreeSet::new(), BTreeSet::new());
    for _ in 0..20_000 {
        let patch = inputs::patch(&mut random);
        let tested = test_patch(&patch);
        let codes = destinations(&patch, tested);
        patches.extend(codes.iter().map(|&code| (tested.answer, code)));

        let edit @ [bus, source, amount, code] = inputs::bus_edit(&mut random);
        let mut edited = P;
        let tested = apply_bus_edit(&mut edited, bus, source, amount, code);
        edits.extend(destination(edit, tested).map(|code| (tested.answer, code)));
    }
    for met in MET {
        assert!(patches.contains(&met), "{met:?}");
        assert!(edits.contains(&met), "{met:?}");
    }
}

/// The reports of all streams of a kind, each with its message less real time.
fn reports_in(kind: &str) -> Vec<(Report, Vec<u8>)> {
    let seeds = (0..300 * CYCLE).filter(|&seed| kind_of(seed) == kind);
    let found = seeds.flat_map(|seed| {
        let input = stream(seed);
        let message = |report: &Report| less_real_time(&input[report.start..report.end]);
        let found: Vec<_> = reports(&input).collect();
        let messages: Vec<_> = found.iter().map(message).collect();
        found.into_iter().zip(messages)
    });
    found.collect()
}

/// Opcode, answer and detail of the dumps among them that are refused.
fn refused_dumps(kind: &str) -> BTreeSet<(u8, u8, usize)> {
    let found = reports_in(kind);
    let refused = found.iter().filter(|(report, _)| report.answer >= 9);
    let told = refused.map(|(report, message)| (message[3], report.answer, report.detail));
    told.collect()
}

#[test]
fn streams_meet_the_refusals_of_exchanged_neighbours() {
    let found = refused_dumps("neighbours exchanged");
    for (opcode, last_nibble) in [(0x01, 267), (0x0D, 267), (0x02, 35), (0x03, 343)] {
        assert!(found.contains(&(opcode, 9, last_nibble)));
        assert!(found.contains(&(opcode, 10, 0)));
    }
}

#[test]
fn streams_meet_the_refusals_of_nibble_pairs() {
    let found = refused_dumps("nibble pair replaced");
    let count = |opcode, answer| {
        let told = found
            .iter()
            .filter(|told| (told.0, told.1) == (opcode, answer));
        told.count()
    };
    for opcode in [0x01, 0x0D] {
        assert!(count(opcode, 9) > 10);
        assert_eq!(count(opcode, 10), 1);
        assert!(count(opcode, 11) > 10);
    }
    assert!(count(0x02, 9) > 5);
    assert_eq!(count(0x02, 10), 1);
    assert!(count(0x02, 11) > 5);
    // A master has no field test.
    assert!(count(0x03, 9) > 10);
    assert_eq!(count(0x03, 10), 1);
    assert_eq!(count(0x03, 11), 0);
}

#[test]
fn streams_begin_other_messages_inside_dumps() {
    let mut found = BTreeSet::new();
    for pair in reports_in("nibble pair replaced").windows(2) {
        let [(outer, dump), (inner, begun)] = pair else {
            unreachable!("windows of two");
        };
        // Both together are as long as the dump was.
        let whole = [275, 351].contains(&(dump.len() + begun.len()));
        let inside = outer.answer == 3 && outer.end == inner.start && whole;
        if let ([_, _, _, around, ..], [0xF0, 0x10, 0x06, opcode, ..], true) =
            (&dump[..], &begun[..], inside)
        {
            found.insert((*around, *opcode, inner.answer));
        }
    }
    assert!(found.contains(&(0x03, 0x02, 11)));
    for opcode in [0x02, 0x06, 0x0B] {
        // In a master it can be accepted; in a patch its length is wrong.
        assert!(found.contains(&(0x03, opcode, 0)));
        assert!(found.contains(&(0x01, opcode, 7)) && found.contains(&(0x0D, opcode, 7)));
    }
    for opcode in [0x04, 0x07, 0x0A, 0x0C, 0x0E] {
        assert!(found.contains(&(0x03, opcode, 0)));
    }
    // Only a store message can end with a patch.
    for around in [0x01, 0x0D] {
        let accepted = found.iter().filter(|told| (told.0, told.2) == (around, 0));
        assert!(accepted.eq([&(around, 0x0E, 0)]));
    }
}

/// A place, and whether a byte out of range there is below the least value.
type Side = (usize, bool);

/// The side that an 11 is about.
fn side(fields: &[Field], tested: Outcome) -> Option<Side> {
    let place = tested.detail;
    (tested.answer == 11).then(|| (place, tested.value < fields[place].1))
}

/// Above the greatest value at every place; below the least where a byte can be.
fn every_side(fields: &[Field]) -> BTreeSet<Side> {
    let below = |place| place == 76 || model::has_sign(place);
    let sides = (0..fields.len()).flat_map(|place| [(place, false), (place, true)]);
    sides
        .filter(|&(place, is_below)| !is_below || below(place))
        .collect()
}

#[test]
fn patches_reach_every_side_of_every_field() {
    let fields = model::fields();
    let mut random = Random::new(42);
    let (mut lent, mut one) = (BTreeSet::new(), BTreeSet::new());
    for _ in 0..100_000 {
        lent.extend(side(&fields, test_patch(&inputs::patch(&mut random))));
        let patch = inputs::one_out_of_range_patch(&mut random);
        one.extend(side(&fields, test_patch(&patch)));
        let outside = |&place: &usize| !model::allows(&fields, place, patch[place]);
        assert_eq!((0..134).filter(outside).count(), 1);
    }
    assert_eq!(lent, every_side(&fields));
    assert_eq!(one, every_side(&fields));
}

#[test]
fn banks_reach_every_side_of_every_field() {
    let fields = model::fields();
    let mut random = Random::new(43);
    let mut found = BTreeSet::new();
    for _ in 0..40_000 {
        let bank = write_bank(&inputs::bank(&mut random), &mut []);
        let tested = Outcome {
            answer: bank.answer,
            detail: bank.detail,
            value: bank.value,
        };
        // In a patch other than the first.
        found.extend(side(&fields, tested).filter(|_| bank.place > 0));
    }
    assert_eq!(found, every_side(&fields));
}

#[test]
fn edits_reach_every_side_that_seven_bits_can() {
    let fields = model::fields();
    let mut random = Random::new(44);
    let (mut remote, mut buses) = (BTreeSet::new(), BTreeSet::new());
    for _ in 0..100_000 {
        let [parameter, value] = inputs::edit(&mut random);
        remote.extend(side(&fields, apply_edit(&mut P.clone(), parameter, value)));
        let [bus, source, amount, destination] = inputs::bus_edit(&mut random);
        let tested = apply_bus_edit(&mut P.clone(), bus, source, amount, destination);
        buses.extend(side(&fields, tested));
    }
    // No edit reaches a name, and none leaves byte 26 or an amount.
    let reached = every_side(&fields).into_iter().filter(|&(place, _)| {
        place == 19 || (place >= 8 && place != 26 && !model::has_sign(place))
    });
    let (of_buses, of_parameters) = reached.partition(|&(place, _)| place >= 104);
    assert_eq!(remote, of_parameters);
    assert_eq!(buses, of_buses);
}

/// The sides on which dumps with these opcodes are out of range, in the streams of many seeds.
fn sides_in_streams(opcodes: &[u8], fields: &[Field]) -> BTreeSet<Side> {
    let mut found = BTreeSet::new();
    for seed in 0..100 * CYCLE {
        let input = stream(seed);
        for report in reports(&input).filter(|report| report.answer == 11) {
            let message = less_real_time(&input[report.start..report.end]);
            if opcodes.contains(&message[3]) {
                found.extend(side(fields, report_outcome(&report)));
            }
        }
    }
    found
}

#[test]
fn dumps_in_streams_reach_every_side_of_every_field() {
    let fields = model::fields();
    let found = sides_in_streams(&[0x01, 0x0D], &fields);
    assert_eq!(found, every_side(&fields));
}

/// The sides of a split's fields: above everywhere, below where there is a sign.
fn every_split_side() -> BTreeSet<Side> {
    let above = (0..18).map(|place| (place, false));
    let below = (0..18).filter(|&place| model::split_has_sign(place));
    above.chain(below.map(|place| (place, true))).collect()
}

#[test]
fn good_and_bad_splits_are_what_they_say() {
    let fields = model::split_fields();
    let mut random = Random::new(47);
    let (mut lengths, mut numbers) = (BTreeSet::new(), BTreeSet::new());
    let (mut lent, mut one) = (BTreeSet::new(), BTreeSet::new());
    for _ in 0..20_000 {
        assert_eq!(test_split(&inputs::good_split(&mut random)), outcome(0, 0));
        let several = inputs::out_of_range_split(&mut random);
        assert_eq!(test_split(&several).answer, 11);
        let split = inputs::one_out_of_range_split(&mut random);
        one.extend(side(&fields, test_split(&split)));
        let outside = |&place: &usize| !model::split_allows(&fields, place, split[place]);
        assert_eq!((0..18).filter(outside).count(), 1);
        let split = inputs::split(&mut random);
        lengths.insert(split.len());
        lent.extend(side(&fields, test_split(&split)));
        numbers.insert(inputs::split_number(&mut random));
    }
    assert!(lengths.is_superset(&[0, 17, 18, 19, 36].into_iter().collect()));
    assert_eq!(numbers, (0..=255).collect());
    assert_eq!(one, every_split_side());
    assert_eq!(lent, every_split_side());
}

#[test]
fn splits_in_streams_reach_every_side_of_every_field() {
    let found = sides_in_streams(&[0x02], &model::split_fields());
    assert_eq!(found, every_split_side());
}

/// Lengths less real time and answers of the splits in streams of a kind.
fn splits_in(kind: &str) -> BTreeSet<(usize, u8)> {
    let found = reports_in(kind).into_iter();
    let splits = found.filter(|(_, message)| message.starts_with(&[0xF0, 0x10, 0x06, 0x02]));
    let told = splits.map(|(report, message)| (message.len(), report.answer));
    told.collect()
}

#[test]
fn streams_have_splits_of_every_sort() {
    for (kind, met) in [
        ("split", &[(43, 0)][..]),
        ("split nibble", &[(42, 7), (43, 9), (43, 10), (43, 11)]),
        ("split out of range", &[(43, 11)]),
        ("split of a wrong length", &[(41, 7), (42, 7), (44, 7)]),
        ("dummy splits", &[(41, 7)]),
        ("number not allowed", &[(43, 8)]),
        ("wide data", &[(43, 9)]),
        ("wrong sum", &[(43, 10)]),
        ("wrong length", &[(41, 7), (42, 7), (44, 7)]),
        ("high nibble moved", &[(43, 11)]),
        ("real time inside", &[(43, 0)]),
        ("real time in refused", &[(41, 7), (42, 7), (43, 11)]),
    ] {
        let found = splits_in(kind);
        for split in met {
            assert!(found.contains(split), "{kind} {split:?}");
        }
    }
    for kind in ["cut", "interrupted"] {
        let found = splits_in(kind);
        let broken = found.iter().filter(|told| [2, 3].contains(&told.1));
        assert!(broken.count() > 10, "{kind}");
    }
}

#[test]
fn dummy_splits_come_fifty_at_a_time() {
    let most = (0..30 * CYCLE)
        .filter(|&seed| kind_of(seed) == "dummy splits")
        .map(|seed| {
            let input = stream(seed);
            let answers: Vec<u8> = reports(&input).map(|report| report.answer).collect();
            let runs = answers.chunk_by(|one, other| one == other);
            runs.filter(|run| run[0] == 7).map(<[u8]>::len).max()
        })
        .max();
    assert!(most.flatten().is_some_and(|most| most >= 50));
}

/// Operations made in a way, with how many of them; whether all are allowed or none is.
fn operations_made<const LENGTH: usize>(
    random: &mut Random,
    opcode: u8,
    make: impl Fn(&mut Random) -> [u8; LENGTH],
) -> BTreeMap<[u8; LENGTH], bool> {
    let made = (0..40_000).map(|_| {
        let bytes = make(random);
        let allowed = model::operation(&[&[opcode], &bytes[..]].concat()).unwrap();
        (bytes, allowed)
    });
    made.collect()
}

/// Good operations are all that there are; bad ones are none of these and keep to the greatest byte;
/// those handed in are both.
fn made_as_they_say<const LENGTH: usize>(
    opcode: u8,
    good: fn(&mut Random) -> [u8; LENGTH],
    bad: fn(&mut Random, u8) -> [u8; LENGTH],
    any: fn(&mut Random) -> [u8; LENGTH],
) -> usize {
    let mut random = Random::new(48);
    let found = operations_made(&mut random, opcode, good);
    assert!(found.values().all(|&allowed| allowed));
    let all = found.len();
    for most in [127, 255] {
        let found = operations_made(&mut random, opcode, |random| bad(random, most));
        assert!(found.values().all(|&allowed| !allowed));
        // At each place a byte that is the greatest, and none above it.
        for place in 0..LENGTH {
            let greatest = found.keys().map(|bytes| bytes[place]).max();
            assert_eq!(greatest, Some(most));
        }
    }
    let found = operations_made(&mut random, opcode, any);
    let allowed: BTreeSet<bool> = found.values().copied().collect();
    assert_eq!(allowed.len(), 2);
    all
}

#[test]
fn good_and_bad_operations_are_what_they_say() {
    let requests = made_as_they_say(
        0x04,
        inputs::good_request,
        inputs::bad_request,
        inputs::request,
    );
    assert_eq!(requests, 100 + 3);
    let groups = made_as_they_say(0x07, inputs::good_group, inputs::bad_group, inputs::group);
    assert_eq!(groups, 5 * 6);
    let banks = made_as_they_say(
        0x0A,
        inputs::good_bank_number,
        inputs::bad_bank_number,
        inputs::bank_number,
    );
    assert_eq!(banks, 10);
    let stores = made_as_they_say(0x0E, inputs::good_store, inputs::bad_store, inputs::store);
    assert!(stores > 6_000, "{stores}");
}

/// Opcode, length less real time and answer of the operations in streams of a kind.
fn operations_in(kind: &str) -> BTreeSet<(u8, usize, u8)> {
    let found = reports_in(kind).into_iter();
    let told = found.filter_map(|(report, message)| match message[..] {
        [0xF0, 0x10, 0x06, opcode @ (0x04 | 0x07 | 0x0A | 0x0C | 0x0E), ..] => {
            Some((opcode, message.len(), report.answer))
        }
        _ => None,
    });
    told.collect()
}

#[test]
fn streams_have_operations_of_every_sort() {
    let right = [(0x04, 7), (0x07, 7), (0x0A, 6), (0x0C, 5), (0x0E, 8)];
    for (kind, good, bad, wrong) in [
        ("operation not allowed", false, true, false),
        ("operation of a wrong length", false, false, true),
        ("real time in operations", true, true, true),
        ("operations", true, true, true),
        ("good message", true, false, false),
        ("real time inside", true, false, false),
        ("real time in runs", true, true, false),
        ("dense real time", true, true, false),
        ("real time in refused", false, true, true),
    ] {
        let found = operations_in(kind);
        for (opcode, length) in right {
            let meets = |length, answer| found.contains(&(opcode, length, answer));
            assert!(!good || meets(length, 0), "{kind} {opcode}");
            assert!(
                !bad || opcode == 0x0C || meets(length, 8),
                "{kind} {opcode}"
            );
            let shorter = opcode == 0x0C || meets(length - 1, 7);
            assert!(!wrong || shorter && meets(length + 1, 7), "{kind} {opcode}");
        }
    }
    for kind in ["cut", "interrupted", "real time in operations"] {
        let found = operations_in(kind);
        for (opcode, _) in right {
            let broken = |answer| {
                found
                    .iter()
                    .any(|told| (told.0, told.2) == (opcode, answer))
            };
            assert!(broken(2) && broken(3), "{kind} {opcode}");
        }
    }
}

#[test]
fn each_kinds_length_is_met_behind_the_opcode_of_another() {
    let found = operations_in("operation of a wrong length");
    for (opcode, right) in [(0x04, 7), (0x07, 7), (0x0A, 6), (0x0C, 5), (0x0E, 8)] {
        for length in (5..=9).filter(|&length| length != right) {
            assert!(found.contains(&(opcode, length, 7)), "{opcode} {length}");
        }
    }
}

#[test]
fn group_messages_go_from_unit_to_unit() {
    let mut found = BTreeSet::new();
    for pair in reports_in("group chain").windows(2) {
        let [(_, one), (next, other)] = pair else {
            unreachable!("windows of two");
        };
        if let (
            &[0xF0, 0x10, 0x06, 0x07, total, id, 0xF7],
            &[0xF0, 0x10, 0x06, 0x07, same, raised, 0xF7],
        ) = (&one[..], &other[..])
        {
            if total == same && raised == id + 1 {
                found.insert((total, raised, next.answer));
            }
        }
    }
    for total in 2..=6 {
        for raised in 1..=6 {
            // An ID of 6 is never accepted.
            let answer = if raised == 6 { 8 } else { 0 };
            assert!(found.contains(&(total, raised, answer)), "{total} {raised}");
        }
    }
}

#[test]
fn banks_in_streams_have_a_dump_out_of_range_among_others() {
    let found: BTreeSet<[u8; 3]> = reports_in("bank")
        .windows(3)
        .filter(|dumps| {
            let mut numbered = (0..).zip(*dumps);
            numbered.all(|(number, (_, message))| is_numbered(message, number))
        })
        .map(|dumps| [0, 1, 2].map(|index: usize| dumps[index].0.answer))
        .collect();
    for answers in [[0, 0, 0], [11, 0, 0], [0, 11, 0], [0, 0, 11]] {
        assert!(found.contains(&answers), "{answers:?}");
    }
}

/// Whether a message is a dump with this patch number.
fn is_numbered(message: &[u8], number: u8) -> bool {
    message.len() == 275 && message[3..5] == [0x01, number]
}

#[test]
fn damages_reach_every_side_that_one_can() {
    let fields = model::fields();
    let mut random = Random::new(45);
    let mut found = BTreeSet::new();
    for _ in 0..200_000 {
        let patch = inputs::good_patch(&mut random);
        let mut dump = written(|out| write_patch(0, &patch, out));
        Damage::any(&mut random, &dump, damageable(0)).apply(&mut dump);
        found.extend(side(&fields, report_outcome(&walk(&dump, 0))));
    }
    // The sum stays only where a byte is moved by 128, so byte 76 doesn't become 0.
    let mut expected = every_side(&fields);
    expected.remove(&(76, true));
    assert_eq!(found, expected);
}

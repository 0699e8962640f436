//! The model of a unit: what each message does to it, store messages, group messages that are sent
//! on, and chains of units.

use std::collections::BTreeSet;

use reference::streams::units::{chain, chain_message, unit, unit_stream};
use reference::streams::{stream, Random, CYCLE};
use reference::{feed_chain, reports, walk, Step, Unit};

use crate::kit::{
    bus_message, dump, edit_message, less_real_time, operation_message, report, with_real_time, P,
    SPLIT,
};

/// A group message.
fn group(total: u8, id: u8) -> Vec<u8> {
    operation_message(0x07, &[total, id])
}

/// A store message.
fn store(id: u8) -> Vec<u8> {
    operation_message(0x0E, &[42, 3, id])
}

/// Some units in any state.
fn units(seed: u64) -> Vec<Unit> {
    let mut random = Random::new(seed);
    (0..200).map(|_| unit(&mut random)).collect()
}

/// The unit, whether the message is meant for it, and what is sent on.
type Done = (Unit, bool, Option<Vec<u8>>);

/// Document 02 once more: what an accepted message does, real time dropped.
fn done(unit: Unit, message: &[u8]) -> Done {
    let Unit {
        bank,
        locked,
        group,
    } = unit;
    match *message {
        [0xF0, 0x10, 0x06, 0x0A, bank, 0xF7] => {
            let locked = true;
            (
                Unit {
                    bank,
                    locked,
                    group,
                },
                false,
                None,
            )
        }
        [0xF0, 0x10, 0x06, 0x0C, 0xF7] => {
            let locked = false;
            (
                Unit {
                    bank,
                    locked,
                    group,
                },
                false,
                None,
            )
        }
        [0xF0, 0x10, 0x06, 0x0E, _, _, id, 0xF7] => {
            let own = group == Some(id) || (group.is_some() && id == 0x7F);
            (unit, own || (group.is_none() && id == 0), None)
        }
        [0xF0, 0x10, 0x06, 0x07, total, id, 0xF7] => {
            let group = Some(id);
            let raised = vec![0xF0, 0x10, 0x06, 0x07, total, id + 1, 0xF7];
            let sent = (id != 5).then_some(raised);
            (
                Unit {
                    bank,
                    locked,
                    group,
                },
                false,
                sent,
            )
        }
        _ => (unit, false, None),
    }
}

/// What a step is to be: the walk's report, and what is done by an accepted message.
fn expected(unit: Unit, input: &[u8], place: usize) -> Step {
    let report = walk(input, place);
    let (unit, meant, sent) = if report.answer == 0 {
        done(unit, &less_real_time(&input[report.start..report.end]))
    } else {
        (unit, false, None)
    };
    let sent = sent.map(|sent| sent.try_into().unwrap());
    Step {
        report,
        unit,
        meant,
        sent,
    }
}

/// A message changes nothing, is meant for no unit, and is not sent on.
fn does_nothing(message: &[u8]) {
    for unit in units(160) {
        let step = Step {
            report: walk(message, 0),
            unit,
            meant: false,
            sent: None,
        };
        assert_eq!(unit.step(message, 0), step);
    }
}

// One message.

#[test]
fn a_bank_message_sets_the_bank_and_the_lock() {
    for bank in 0..=9 {
        let message = operation_message(0x0A, &[bank]);
        for unit in units(161) {
            let step = Step {
                report: report(0, 6, 0, 0x0A),
                unit: Unit {
                    bank,
                    locked: true,
                    group: unit.group,
                },
                meant: false,
                sent: None,
            };
            assert_eq!(unit.step(&message, 0), step);
        }
    }
}

#[test]
fn unlock_clears_the_lock() {
    let message = operation_message(0x0C, &[]);
    for unit in units(162) {
        let step = Step {
            report: report(0, 5, 0, 0x0C),
            unit: Unit {
                locked: false,
                ..unit
            },
            meant: false,
            sent: None,
        };
        assert_eq!(unit.step(&message, 0), step);
    }
}

#[test]
fn a_group_message_sets_the_number_and_is_sent_on() {
    for total in 2..=6 {
        for id in 0..=5 {
            for unit in units(163) {
                let raised = [0xF0, 0x10, 0x06, 0x07, total, id + 1, 0xF7];
                let step = Step {
                    report: report(0, 7, 0, 0x07),
                    unit: Unit {
                        group: Some(id),
                        ..unit
                    },
                    meant: false,
                    // An ID of 6 is never made.
                    sent: (id < 5).then_some(raised),
                };
                assert_eq!(unit.step(&group(total, id), 0), step);
                assert_eq!(
                    unit.step(&with_real_time(&group(total, id)), 0).sent,
                    step.sent
                );
            }
        }
    }
}

#[test]
fn what_is_sent_on_is_accepted() {
    for total in 2..=6 {
        for id in 0..5 {
            let sent = Unit::default().step(&group(total, id), 0).sent.unwrap();
            assert_eq!(sent[..], group(total, id + 1));
            assert_eq!(walk(&sent, 0), report(0, 7, 0, 0x07));
        }
    }
}

#[test]
fn a_request_and_a_store_change_nothing() {
    let mut requests: Vec<[u8; 2]> = (0..100).map(|number| [1, number]).collect();
    requests.extend([[0, 0], [3, 0], [4, 0]]);
    for request in requests {
        does_nothing(&operation_message(0x04, &request));
    }
    for id in (0..=5).chain([0x7F]) {
        for unit in units(164) {
            let step = unit.step(&store(id), 0);
            assert_eq!((step.unit, step.sent), (unit, None));
            assert_eq!(step.report, report(0, 8, 0, 0x0E));
        }
    }
}

#[test]
fn every_unit_and_every_id() {
    let groups = (0..=255).map(Some).chain([None]);
    for group in groups {
        for id in 0..=255 {
            let meant = match group {
                None => id == 0,
                Some(number) => id == number || id == 0x7F,
            };
            for (bank, locked) in [(0, false), (9, true), (255, false), (id, true)] {
                let unit = Unit {
                    bank,
                    locked,
                    group,
                };
                assert_eq!(unit.is_meant(id), meant);
                if id <= 5 || id == 0x7F {
                    assert_eq!(unit.step(&store(id), 0).meant, meant);
                    let noisy = with_real_time(&store(id));
                    assert_eq!(unit.step(&noisy, 0).meant, meant);
                }
            }
        }
    }
}

#[test]
fn the_number_and_the_bank_of_a_store_message_decide_nothing() {
    let own = Unit {
        group: Some(3),
        ..Unit::default()
    };
    for number in 0..=99 {
        for bank in 0..=9 {
            let meant = |id| {
                let message = operation_message(0x0E, &[number, bank, id]);
                own.step(&message, 0).meant
            };
            assert!(meant(3) && meant(0x7F));
            assert!([0, 1, 2, 4, 5].into_iter().all(|id| !meant(id)));
        }
    }
}

// Messages that do nothing.

#[test]
fn refused_messages() {
    for byte in 0..=127 {
        if !(2..=6).contains(&byte) {
            does_nothing(&group(byte, 0));
        }
        if byte > 5 {
            does_nothing(&group(6, byte));
        }
        if byte > 9 {
            does_nothing(&operation_message(0x0A, &[byte]));
            does_nothing(&operation_message(0x0E, &[0, byte, 0]));
        }
        if byte > 99 {
            does_nothing(&operation_message(0x0E, &[byte, 0, 0]));
        }
        does_nothing(&operation_message(0x0C, &[byte]));
        does_nothing(&operation_message(0x0A, &[byte, 0]));
    }
    // Wrong lengths, cut, interrupted, of another device or maker.
    for message in [
        &group(6, 0)[..6],
        &store(0)[..7],
        &operation_message(0x0C, &[])[..4],
        &operation_message(0x07, &[6]),
        &operation_message(0x07, &[6, 0, 0]),
        &operation_message(0x0E, &[0, 0]),
        &operation_message(0x0E, &[0, 0, 0, 0]),
        &[0xF0, 0x10, 0x06, 0x0C, 0x90, 0xF7],
        &[0xF0, 0x10, 0x02, 0x0C, 0xF7],
        &[0xF0, 0x41, 0x06, 0x0C, 0xF7],
    ] {
        assert_ne!(walk(message, 0).answer, 0);
        does_nothing(message);
    }
}

#[test]
fn an_id_that_no_message_has_is_meant_for_no_unit() {
    // By its own number alone it would be meant.
    for id in (6..=126).chain(128..=255) {
        let unit = Unit {
            group: Some(id),
            ..Unit::default()
        };
        assert!(unit.is_meant(id));
        if id <= 127 {
            let step = unit.step(&store(id), 0);
            assert_eq!((step.report.answer, step.meant), (8, false));
        }
    }
}

#[test]
fn messages_of_other_kinds() {
    let mut master = vec![0; 351];
    master[..5].copy_from_slice(&[0xF0, 0x10, 0x06, 0x03, 0x03]);
    master[350] = 0xF7;
    for message in [
        dump(0x01, 5, &P),
        dump(0x0D, 0, &P),
        dump(0x02, 7, &SPLIT),
        master,
        edit_message([0x15, 0x7F]).to_vec(),
        bus_message([9, 20, 0x40, 32]),
    ] {
        assert_eq!(walk(&message, 0).answer, 0);
        does_nothing(&message);
    }
}

#[test]
fn no_message_at_all() {
    let behind = operation_message(0x0C, &[]);
    for unit in units(165) {
        for input in [&[][..], &[0xF7], &[0xFE; 40], &behind[1..]] {
            for place in [0, 1, input.len(), usize::MAX] {
                let step = Step {
                    report: report(input.len(), input.len(), 1, 0),
                    unit,
                    meant: false,
                    sent: None,
                };
                assert_eq!(unit.step(input, place), step);
            }
        }
        assert_eq!(unit.step(&behind, 1).unit, unit);
    }
}

// Several messages.

#[test]
fn one_message_at_a_step() {
    let stream = [
        operation_message(0x0A, &[7]),
        group(4, 2),
        operation_message(0x0C, &[]),
        store(2),
        operation_message(0x0A, &[10]),
        store(0x7F),
        store(0),
        group(6, 5),
    ]
    .concat();
    let at = |bank, locked, group| Unit {
        bank,
        locked,
        group,
    };
    let expected = [
        (6, at(7, true, None), false, None),
        (13, at(7, true, Some(2)), false, Some(group(4, 3))),
        (18, at(7, false, Some(2)), false, None),
        (26, at(7, false, Some(2)), true, None),
        (32, at(7, false, Some(2)), false, None),
        (40, at(7, false, Some(2)), true, None),
        (48, at(7, false, Some(2)), false, None),
        (55, at(7, false, Some(5)), false, None),
    ];
    let (mut unit, mut place) = (Unit::default(), 0);
    for (end, after, meant, sent) in expected {
        let step = unit.step(&stream, place);
        assert_eq!(
            (step.report.end, step.unit, step.meant),
            (end, after, meant)
        );
        assert_eq!(step.sent.map(Vec::from), sent);
        (unit, place) = (step.unit, step.report.end);
    }
    assert_eq!(unit.step(&stream, place).report.answer, 1);
}

#[test]
fn from_every_place_of_a_stream() {
    let mut random = Random::new(166);
    let mut met = BTreeSet::new();
    for _ in 0..300 {
        let stream = unit_stream(&mut random);
        for place in 0..stream.len() + 2 {
            let unit = unit(&mut random);
            let step = unit.step(&stream, place);
            assert_eq!(step, expected(unit, &stream, place));
            let Step { report, meant, .. } = step;
            met.insert((report.answer, report.detail, meant, step.sent.is_some()));
        }
    }
    let detail = |answer: u8, detail| {
        let such = met
            .iter()
            .filter(|told| (told.0, told.1) == (answer, detail));
        such.map(|told| (told.2, told.3)).collect::<Vec<_>>()
    };
    assert_eq!(detail(0, 0x07), [(false, false), (false, true)]);
    assert_eq!(detail(0, 0x0E), [(false, false), (true, false)]);
    for opcode in [1, 2, 3, 4, 6, 10, 11, 12, 13] {
        assert_eq!(detail(0, opcode), [(false, false)]);
    }
    for answer in 1..=8 {
        assert_eq!(detail(answer, 0), [(false, false)], "{answer}");
    }
}

#[test]
fn streams_of_many_seeds_to_their_end() {
    let mut random = Random::new(167);
    let mut changed = 0;
    for seed in 0..8 * CYCLE {
        let input = stream(seed);
        let before = unit(&mut random);
        let (mut unit, mut place) = (before, 0);
        for report in reports(&input) {
            let step = unit.step(&input, place);
            assert_eq!(step.report, report, "seed {seed}");
            assert_eq!(step, expected(unit, &input, place));
            (unit, place) = (step.unit, report.end);
        }
        changed += usize::from(unit != before);
    }
    assert!(changed > 200, "{changed}");
}

#[test]
fn units_in_any_state() {
    let mut random = Random::new(168);
    let made: Vec<Unit> = (0..20_000).map(|_| unit(&mut random)).collect();
    let banks: BTreeSet<u8> = made.iter().map(|unit| unit.bank).collect();
    let numbers: BTreeSet<u8> = made.iter().filter_map(|unit| unit.group).collect();
    assert_eq!((banks.len(), numbers.len()), (256, 256));
    let locks: BTreeSet<_> = made
        .iter()
        .map(|unit| (unit.locked, unit.group.is_some()))
        .collect();
    assert_eq!(locks.len(), 4);
}

// Chains.

/// A chain of so many units in any state.
fn any_chain(random: &mut Random, count: usize) -> Vec<Unit> {
    (0..count).map(|_| unit(random)).collect()
}

/// The units with these numbers in the group, all else as before.
fn numbered(before: &[Unit], numbers: impl Iterator<Item = u8>) -> Vec<Unit> {
    let grouped = before.iter().zip(numbers).map(|(unit, number)| Unit {
        group: Some(number),
        ..*unit
    });
    grouped.collect()
}

#[test]
fn a_chain_numbers_its_units() {
    let mut random = Random::new(169);
    for count in 2..=6 {
        for _ in 0..300 {
            let before = any_chain(&mut random, count);
            let mut units = before.clone();
            let message = group(count as u8, 0);
            assert_eq!(feed_chain(&mut units, &message), count);
            // Unit k has number k, and none is left unset.
            assert_eq!(units, numbered(&before, 0..));
            let mut again = before.clone();
            assert_eq!(feed_chain(&mut again, &with_real_time(&message)), count);
            assert_eq!(again, units);
        }
    }
}

#[test]
fn step_by_step_one_unit_is_numbered_at_a_time() {
    let mut random = Random::new(170);
    for count in 2..=6 {
        let before = any_chain(&mut random, count);
        let mut units = before.clone();
        let mut message = group(count as u8, 0);
        for index in 0..count {
            let step = units[index].step(&message, 0);
            units[index] = step.unit;
            assert_eq!(units[..=index], numbered(&before, 0..)[..=index]);
            assert_eq!(units[index + 1..], before[index + 1..]);
            // The last unit of six has nothing to send on.
            assert_eq!(step.sent.is_some(), index < 5);
            message = step.sent.map_or(vec![], Vec::from);
        }
    }
}

#[test]
fn a_seventh_unit_is_not_reached() {
    let mut random = Random::new(171);
    for total in 2..=6 {
        for _ in 0..100 {
            let before = any_chain(&mut random, 7);
            let mut units = before.clone();
            assert_eq!(feed_chain(&mut units, &group(total, 0)), 6);
            assert_eq!(units[..6], numbered(&before[..6], 0..));
            assert_eq!(units[6], before[6]);
        }
    }
    assert_eq!(feed_chain(&mut [], &group(2, 0)), 0);
}

#[test]
fn a_chain_fed_any_id_and_total() {
    let mut random = Random::new(172);
    for count in 1..=7 {
        for (total, id) in (0..=127).flat_map(|total| (0..=127).map(move |id| (total, id))) {
            let before = any_chain(&mut random, count);
            let mut units = before.clone();
            let fed = feed_chain(&mut units, &group(total, id));
            if !(2..=6).contains(&total) || id > 5 {
                assert_eq!((fed, units), (1, before));
                continue;
            }
            // From that ID on, to the last one or to the chain's end. The total bounds nothing.
            let reached = count.min(6 - usize::from(id));
            assert_eq!(fed, reached);
            assert_eq!(units[..reached], numbered(&before[..reached], id..));
            assert_eq!(units[reached..], before[reached..]);
        }
    }
}

#[test]
fn other_messages_reach_the_first_unit_alone() {
    let mut random = Random::new(173);
    for message in [
        operation_message(0x0A, &[3]),
        operation_message(0x0C, &[]),
        store(0),
    ] {
        let before = any_chain(&mut random, 6);
        let mut units = before.clone();
        assert_eq!(feed_chain(&mut units, &message), 1);
        assert_eq!(units[0], before[0].step(&message, 0).unit);
        assert_eq!(units[1..], before[1..]);
    }
}

#[test]
fn store_messages_to_each_unit_of_a_chain_and_to_all() {
    let mut random = Random::new(174);
    for count in 2..=6 {
        let mut units = any_chain(&mut random, count);
        feed_chain(&mut units, &group(count as u8, 0));
        for id in 0..=5 {
            let meant: Vec<bool> = units
                .iter()
                .map(|unit| unit.step(&store(id), 0).meant)
                .collect();
            let expected = (0..count).map(|index| index == usize::from(id));
            assert!(meant.into_iter().eq(expected));
        }
        assert!(units.iter().all(|unit| unit.step(&store(0x7F), 0).meant));
    }
    // Before it, with group off, the first ID is each unit's and 7FH no one's.
    let unset = [Unit::default(); 6];
    assert!(unset.iter().all(|unit| unit.step(&store(0), 0).meant));
    for id in (1..=5).chain([0x7F]) {
        assert!(unset.iter().all(|unit| !unit.step(&store(id), 0).meant));
    }
}

#[test]
fn chains_and_their_messages_of_any_kind() {
    let mut random = Random::new(175);
    let mut met = BTreeSet::new();
    for _ in 0..20_000 {
        let before = chain(&mut random);
        let mut message = chain_message(&mut random);
        let mut units = before.clone();
        let fed = feed_chain(&mut units, &message);
        met.insert((before.len(), fed));
        for (index, unit) in before.iter().enumerate() {
            if index >= fed {
                assert_eq!(units[index], *unit);
                continue;
            }
            let step = expected(*unit, &message, 0);
            assert_eq!(units[index], step.unit);
            let last = index + 1 == fed;
            assert!(last || step.sent.is_some());
            assert!(!last || fed == before.len() || step.sent.is_none());
            message = step.sent.map_or(vec![], Vec::from);
        }
    }
    for count in 1..=7 {
        for fed in 1..=count.min(6) {
            assert!(met.contains(&(count, fed)), "{count} {fed}");
        }
    }
}

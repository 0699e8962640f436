//! Wider than document 02: neighbours exchanged anywhere behind a dump's F0H, and any two values in
//! place of two neighbouring data bytes. Of the latter one pair can make another message that is
//! accepted: F0H and 10H in place of the last source begin a store message, if the last amount, the
//! last destination and the checksum read so.

use std::collections::BTreeSet;

use reference::streams::damage::Damage;
use reference::streams::{inputs, Random};
use reference::{reports, Report};

use crate::kit::{outcome, record, report, reported, with_sum};
use crate::model;
use crate::neighbours::exchanged;
use crate::undamaged::{by_turns, dumps, placed, surroundings, Undamaged, DATA};

/// The report of a dump with unequal neighbours exchanged anywhere behind its F0H.
fn slipped(undamaged: &Undamaged, at: usize) -> Report {
    let Undamaged { start, end, .. } = *undamaged;
    let dump = &undamaged.stream[start..end];
    let (opcode, number) = (dump[3], dump[4]);
    let refusal = match at - start {
        1 => outcome(4, 0),
        2 => outcome(5, 0),
        // The number stands as the opcode; 0DH then has 01H where its zero should be.
        3 => match number {
            0x02..=0x04 | 0x06 | 0x07 | 0x0A..=0x0C | 0x0E => outcome(7, 0),
            0x0D => outcome(8, 0),
            _ => outcome(6, 0),
        },
        4 if opcode == 0x0D => outcome(8, 0),
        4 if number > 15 => outcome(9, 0),
        4 => outcome(10, 0),
        // The checksum stands behind the F7H, outside.
        273 => return report(start, end - 1, 7, 0),
        offset => exchanged(offset - 5, dump[offset + 1]),
    };
    reported(start, end, refusal)
}

#[test]
fn exchanges_anywhere_behind_the_start() {
    let mut random = Random::new(63);
    for number in 0..100 {
        let patch = inputs::good_patch(&mut random);
        for dump in dumps(number, &patch) {
            for (before, after) in surroundings() {
                let undamaged = Undamaged::new(&before, &dump, &after);
                let places = undamaged.start + 1..undamaged.end;
                for damage in Damage::every_exchange(&undamaged.stream, places) {
                    let Damage::Exchange { at } = damage else {
                        panic!("{damage:?}");
                    };
                    let expected = slipped(&undamaged, at);
                    assert_eq!(undamaged.survives(damage), [expected], "{damage:?}");
                }
            }
        }
    }
}

/// The indices at which the ranges allow data to read 06H and then this nibble.
fn reads_06h_then(nibble: u8) -> Vec<usize> {
    let fields = model::fields();
    let allows = |place, byte| model::allows(&fields, place, byte);
    let reads = |index: usize| {
        let place = index / 2;
        if index.is_multiple_of(2) {
            return allows(place, 0x06 + 16 * nibble);
        }
        (0x60..=0x6F).any(|byte| allows(place, byte))
            && (0..16).any(|high| allows(place + 1, nibble + 16 * high))
    };
    (0..DATA - 1).filter(|&index| reads(index)).collect()
}

#[test]
fn where_a_patch_reads_as_the_header_of_an_edit() {
    // An edit that ends with the dump has its 06H at 265 or 263: F0H, 10H, 06H, 06H, the last
    // nibble, the checksum; and for 0BH two nibbles more. Only byte 26 has a high nibble of 6.
    assert_eq!(reads_06h_then(0x06), [52, 53]);
    assert_eq!(reads_06h_then(0x0B), [53]);
}

#[test]
fn where_a_patch_reads_as_the_header_of_a_split() {
    // A split that ends with the dump has its 06H at 229: F0H, 10H, 06H, 02H, a number, 36 nibbles,
    // the checksum. That is the high nibble of byte 114, an amount, whose are 0 to 3 and 12 to 15.
    let indices = reads_06h_then(0x02);
    assert!(indices.contains(&53) && !indices.contains(&229));
}

#[test]
fn where_a_patch_reads_as_the_header_of_an_operation() {
    // One that ends with the dump has its 06H at 265 (04H and 07H), 266 (0AH), 267 (0CH) or 264
    // (0EH). At 265 stands the high nibble of an amount, which isn't 6; at 267 that of a
    // destination, which is neither 6 nor 0AH.
    for opcode in [0x04, 0x07] {
        assert!(!reads_06h_then(opcode).contains(&265));
    }
    assert!(!reads_06h_then(0x0A).contains(&266));
    let fields = model::fields();
    assert!((0x60..=0x6F).all(|byte| !model::allows(&fields, 133, byte)));
    assert!(reads_06h_then(0x0E).contains(&264));
}

/// Patches whose data read as headers wherever the ranges allow it: as an edit's at byte 26, as a
/// dump's or another message's in the last bus. The last four have sums that go with one.
fn headers() -> [[u8; 134]; 7] {
    let mut random = Random::new(64);
    let mut patch = |vcf: [u8; 2], bus: [u8; 3]| {
        let mut patch = inputs::good_patch(&mut random);
        patch[26..28].copy_from_slice(&vcf);
        patch[131..].copy_from_slice(&bus);
        patch
    };
    [
        patch([0x66, 0x06], [6, 0x36, 0x16]),
        patch([0x60, 0x36], [6, 0x16, 0x06]),
        patch([0x6F, 0x2B], [6, 0xD6, 0x16]),
        with_sum(patch([0, 0], [6, 0x06, 0x06]), 0x06),
        with_sum(patch([0, 0], [6, 0xF6, 0x16]), 0x10),
        // 0EH with a patch number, a bank and an ID: no unit's, and that of the first.
        with_sum(patch([0, 0], [6, 0xE6, 0x01]), 0x06),
        with_sum(patch([0, 0], [6, 0xE6, 0x01]), 0x00),
    ]
}

/// What a message is answered that F0H and 10H begin inside a dump, before these bytes.
fn begun(behind: &[u8]) -> u8 {
    match *behind {
        [0x06, 0x0E, _, _, id, 0xF7] if id <= 5 || id == 0x7F => 0,
        [0x06, 0x0E, _, _, _, 0xF7] => 8,
        [0x06, 0x01..=0x04 | 0x06 | 0x07 | 0x0A..=0x0E, ..] => 7,
        [0x06, ..] => 6,
        _ => 5,
    }
}

/// Whether these two values at a place begin a message that is accepted.
fn begins(undamaged: &Undamaged, at: usize, bytes: [u8; 2]) -> bool {
    bytes == [0xF0, 0x10] && begun(&undamaged.stream[at + 2..undamaged.end]) == 0
}

#[test]
fn a_store_begun_in_a_patch_is_accepted() {
    let mut random = Random::new(70);
    for id in (0..=5).chain([0x7F]) {
        let mut patch = inputs::good_patch(&mut random);
        patch[131..].copy_from_slice(&[20, 0xE6, 32]);
        for undamaged in placed(&with_sum(patch, id)) {
            let Undamaged { start, end, .. } = undamaged;
            let at = undamaged.data().start + 262;
            let bytes = [0xF0, 0x10];
            assert!(begins(&undamaged, at, bytes));
            let mut damaged = undamaged.stream.clone();
            Damage::ReplaceTwo { at, bytes }.apply(&mut damaged);
            let own = |report: &Report| (start..end).contains(&report.start);
            let found: Vec<Report> = reports(&damaged).filter(own).collect();
            assert_eq!(found, [report(start, at, 3, 0), report(at, end, 0, 0x0E)]);
            assert_eq!(record(&damaged, at).0.bytes, [0, 2, id, 0]);
        }
    }
}

#[test]
fn a_header_begun_at_every_place() {
    let mut random = Random::new(65);
    let many = (0..200).map(|_| inputs::good_patch(&mut random));
    let mut met = BTreeSet::new();
    for patch in headers().into_iter().chain(many) {
        for undamaged in placed(&patch) {
            let Undamaged { start, end, .. } = undamaged;
            for (index, at) in undamaged.data().enumerate().take(DATA - 1) {
                let bytes = [0xF0, 0x10];
                let answer = begun(&undamaged.stream[at + 2..end]);
                met.insert((index, answer));
                if answer == 0 {
                    continue;
                }
                assert_eq!(
                    undamaged.survives(Damage::ReplaceTwo { at, bytes }),
                    [report(start, at, 3, 0), report(at, end, answer, 0)]
                );
            }
        }
    }
    // An edit's header has too much behind it, a dump's in the last bus too little.
    assert!(met.is_superset(&[(50, 7), (51, 7), (262, 7), (264, 7), (266, 6)].into()));
    assert!(!met.contains(&(261, 7)) && !met.contains(&(263, 7)));
    // A store message in the last bus has neither, and no other is accepted.
    assert!(met.contains(&(262, 8)));
    let accepted = met.iter().filter(|&&(_, answer)| answer == 0);
    assert!(accepted.eq([&(262, 0)]));
}

#[test]
#[cfg_attr(debug_assertions, ignore = "slow without optimisation")]
fn every_two_values_at_a_few_places() {
    for undamaged in by_turns(&headers()) {
        for index in [0, 50, 51, 52, 261, 262, 263, 264, 265, 266] {
            let mut count = 0;
            let at = undamaged.data().start + index;
            let bytes = [0xF0, 0x10];
            let begun = begins(&undamaged, at, bytes).then_some(Damage::ReplaceTwo { at, bytes });
            let pairs = Damage::every_wide_pair(&undamaged.stream, at);
            for damage in pairs.filter(|&damage| Some(damage) != begun) {
                undamaged.survives(damage);
                count += 1;
            }
            assert_eq!(count, 256 * 256 - 1 - usize::from(begun.is_some()));
        }
    }
}

#[test]
fn hostile_values_at_every_place() {
    const VALUES: [u8; 12] = [
        0x00, 0x06, 0x0B, 0x10, 0x7F, 0x80, 0xEF, 0xF0, 0xF6, 0xF7, 0xF8, 0xFF,
    ];
    for undamaged in by_turns(&headers()) {
        for at in undamaged.data().take(DATA - 1) {
            let old = &undamaged.stream[at..at + 2];
            let pairs = VALUES
                .iter()
                .flat_map(|&one| VALUES.map(|other| [one, other]));
            let others = pairs.filter(|pair| pair != old);
            for bytes in others.filter(|&pair| !begins(&undamaged, at, pair)) {
                undamaged.survives(Damage::ReplaceTwo { at, bytes });
            }
        }
    }
}

#[test]
fn random_values_at_every_place() {
    let mut random = Random::new(66);
    for round in 0..100 {
        let patch = inputs::good_patch(&mut random);
        for undamaged in placed(&patch).into_iter().skip(round % 2).step_by(2) {
            for at in undamaged.data().take(DATA - 1) {
                let mut bytes = [random.byte(), random.byte()];
                if undamaged.stream[at..at + 2] == bytes {
                    bytes[0] ^= 0x80;
                }
                undamaged.survives(Damage::ReplaceTwo { at, bytes });
            }
        }
    }
}

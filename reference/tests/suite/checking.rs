//! The checker: it accepts a right list, whoever made it, and no other.

use reference::streams::plans::{all_apart, list, list_name, list_of, pair, LISTS};
use reference::streams::{inputs, Random};
use reference::{check_plan, test_patch, write_edit_buffer, write_patch};

use crate::kit::{bus_message, edit_message, outcome, p_with, with_real_time, written, P};
use crate::plan_model;
use crate::planning::good_pairs;

/// Whether a list is accepted; else it is refused by 20.
fn accepted(a: &[u8], b: &[u8], list: &[u8]) -> bool {
    let checked = check_plan(a, b, list);
    assert_eq!(checked, outcome(checked.answer, 0));
    assert!([0, 20].contains(&checked.answer));
    checked.answer == 0
}

/// A pair with detune below 0, VCF frequency above 63, two amounts and three buses apart: to zero,
/// from zero, the amount alone.
fn apart() -> [[u8; 134]; 2] {
    let mut a = P;
    let mut b = P;
    a[9] = 63;
    b[19] = 0xE0;
    b[26] = 0x7F;
    a[86] = 0x3F;
    b[86] = 0xC0;
    a[103] = 0xFF;
    a[104..107].copy_from_slice(&[20, 0xC0, 32]);
    b[119..122].copy_from_slice(&[1, 0x3F, 1]);
    a[131..].copy_from_slice(&[1, 0x00, 1]);
    b[131..].copy_from_slice(&[1, 0xFF, 1]);
    [a, b]
}

/// Its edits, by rising byte place.
fn edits() -> Vec<Vec<u8>> {
    vec![
        edit_message([0, 0]).to_vec(),
        edit_message([12, 0x60]).to_vec(),
        edit_message([21, 0x7F]).to_vec(),
        edit_message([1, 0x40]).to_vec(),
        edit_message([91, 0]).to_vec(),
        bus_message([0, 0, 0, 0]),
        bus_message([5, 1, 0x3F, 1]),
        bus_message([9, 1, 0x7F, 1]),
    ]
}

#[test]
fn the_pair_of_these_tests() {
    let [a, b] = apart();
    assert_eq!(plan_model::edits(&a, &b), edits());
    assert_eq!(crate::planning::list(&a, &b), edits().concat());
}

#[test]
fn as_the_papers_say_it() {
    let mut random = Random::new(80);
    let mut met = [0; 21];
    for seed in 0..60_000 {
        let pair = pair(&mut random);
        let list = list(&mut random, &pair);
        let [a, b] = &pair;
        let expected = plan_model::checked(a, b, &list);
        assert_eq!(check_plan(a, b, &list), expected, "{seed}");
        met[usize::from(expected.answer)] += 1;
    }
    assert!((0..21).all(|answer| [0, 7, 11, 12, 16, 20].contains(&answer) == (met[answer] > 0)));
}

#[test]
fn kinds_that_are_right_are_accepted() {
    let mut random = Random::new(81);
    let right = [
        "hundreds of edits",
        "detours",
        "needless edits",
        "twice over",
        "another order",
        "right",
    ];
    let mut found = 0;
    for kind in 0..LISTS {
        let is_right = right.contains(&list_name(kind));
        found += usize::from(is_right);
        for pair in good_pairs(&mut random, 200) {
            let list = list_of(&mut random, kind, &pair);
            let [a, b] = &pair;
            assert!(accepted(a, b, &list) || !is_right, "{}", list_name(kind));
        }
    }
    assert_eq!(found, right.len());
}

#[test]
fn cut_at_every_byte() {
    let mut random = Random::new(82);
    let mut pairs = good_pairs(&mut random, 200);
    pairs.push(all_apart(&mut random));
    for [a, b] in pairs {
        let list = plan_model::edits(&a, &b).concat();
        for length in 0..=list.len() {
            let whole = length == list.len();
            assert_eq!(accepted(&a, &b, &list[..length]), whole);
            // Cut at the front.
            let behind = &list[list.len() - length..];
            assert_eq!(accepted(&a, &b, behind), whole);
        }
    }
}

/// In the shortest list every byte counts.
#[test]
fn every_byte_changed_lost_or_added() {
    let [a, b] = apart();
    let list = edits().concat();
    assert!(accepted(&a, &b, &list));
    for place in 0..=list.len() {
        for byte in 0..=255 {
            let mut more = list.clone();
            more.insert(place, byte);
            assert!(!accepted(&a, &b, &more), "{place} {byte}");
            if place < list.len() {
                let mut changed = list.clone();
                changed[place] = byte;
                let same = changed == list;
                assert_eq!(accepted(&a, &b, &changed), same, "{place} {byte}");
            }
        }
        if place < list.len() {
            let mut less = list.clone();
            less.remove(place);
            assert!(!accepted(&a, &b, &less), "{place}");
        }
    }
}

#[test]
fn every_byte_changed_in_the_longest_list() {
    let mut random = Random::new(83);
    let [a, b] = all_apart(&mut random);
    let list = plan_model::edits(&a, &b).concat();
    for place in 0..list.len() {
        for bit in 0..8 {
            let mut changed = list.clone();
            changed[place] ^= 1 << bit;
            assert!(!accepted(&a, &b, &changed), "{place} {bit}");
        }
    }
}

/// Either patch with one byte changed, at each place, while the list stays: accepted exactly when the
/// byte is what it was, or one of the first patch that the list sets.
#[test]
fn the_last_patch_is_compared_at_every_place() {
    let [a, b] = apart();
    let list = edits().concat();
    let mut refused = [0; 134];
    for place in 8..134 {
        for byte in 0..=255 {
            let [mut first, mut last] = [a, b];
            first[place] = byte;
            last[place] = byte;
            if test_patch(&last).answer == 0 {
                assert_eq!(accepted(&a, &last, &list), last == b, "{place} {byte}");
                refused[place] += usize::from(last != b);
            }
            if test_patch(&first).answer == 0 {
                let expected = plan_model::accepts(&first, &b, &list);
                assert_eq!(accepted(&first, &b, &list), expected, "{place} {byte}");
            }
        }
    }
    // Of a bus that isn't used, source and destination have nothing else to be.
    assert!((8..104).chain(131..134).all(|place| refused[place] > 0));
    assert!((0..10).all(|bus| refused[105 + 3 * bus] > 0));
}

#[test]
fn edits_in_any_order() {
    let [a, b] = apart();
    let all = edits();
    // Each brought to the front, each put behind, and all turned round.
    for index in 0..all.len() {
        let mut turned = all.clone();
        turned.rotate_left(index);
        assert!(accepted(&a, &b, &turned.concat()));
        turned.reverse();
        assert!(accepted(&a, &b, &turned.concat()));
    }
    let mut random = Random::new(84);
    for [a, b] in good_pairs(&mut random, 500) {
        let mut edits = plan_model::edits(&a, &b);
        for last in (1..edits.len()).rev() {
            edits.swap(last, random.below(last + 1));
        }
        assert!(accepted(&a, &b, &edits.concat()));
    }
}

#[test]
fn needless_edits() {
    let [a, b] = apart();
    let right = edits();
    for index in 0..=right.len() {
        let with = |more: &[Vec<u8>]| {
            let mut list = right.clone();
            list.splice(index..index, more.iter().cloned());
            list.concat()
        };
        // A value that the field has already; another, and back.
        let same = edit_message([33, 1]).to_vec();
        let other = edit_message([33, 20]).to_vec();
        assert!(accepted(&a, &b, &with(std::slice::from_ref(&same))));
        assert!(accepted(&a, &b, &with(&[other.clone(), same.clone()])));
        assert!(!accepted(&a, &b, &with(&[same, other])));
        // The same of an unused bus.
        let unused = bus_message([7, 0, 0, 0]);
        let used = bus_message([7, 20, 0x40, 32]);
        assert!(accepted(&a, &b, &with(std::slice::from_ref(&unused))));
        assert!(accepted(&a, &b, &with(&[used.clone(), unused.clone()])));
        assert!(!accepted(&a, &b, &with(&[unused, used])));
    }
    // The whole twice, and each edit twice.
    assert!(accepted(&a, &b, &right.concat().repeat(2)));
    let doubled: Vec<u8> = right.iter().flat_map(|edit| edit.repeat(2)).collect();
    assert!(accepted(&a, &b, &doubled));
    // A list of 9,362 messages, more than any file of ours.
    let long = edit_message([33, 1]).repeat(9_362);
    assert!(accepted(&a, &b, &[&long[..], &right.concat()].concat()));
}

#[test]
fn an_edit_refused_in_turn() {
    let [a, b] = apart();
    let right = edits();
    let refused = [
        // No such parameter, no such bus.
        edit_message([39, 0]).to_vec(),
        edit_message([127, 0]).to_vec(),
        bus_message([10, 0, 0, 0]),
        // Out of range: each would be mended by a right edit behind it.
        edit_message([0, 0x40]).to_vec(),
        edit_message([12, 0x20]).to_vec(),
        edit_message([12, 0x5F]).to_vec(),
        bus_message([0, 21, 0, 1]),
        bus_message([5, 1, 0, 33]),
        // Half used.
        bus_message([0, 0, 0x40, 32]),
        bus_message([5, 1, 0x3F, 0]),
        bus_message([9, 0, 0x7F, 1]),
    ];
    for edit in refused {
        for index in 0..=right.len() {
            let mut list = right.clone();
            list.insert(index, edit.clone());
            assert!(!accepted(&a, &b, &list.concat()), "{edit:?}");
        }
        assert!(!accepted(&a, &a, &edit));
    }
    // A bus by halves is no way to set it: first the source, then the destination.
    let halves = [bus_message([5, 1, 0x3F, 0]), bus_message([5, 1, 0x3F, 1])];
    let b = p_with(119, &[1, 0x3F, 1]);
    assert!(!accepted(&P, &b, &halves.concat()));
    assert!(accepted(&P, &b, &halves[1]));
}

#[test]
fn other_messages_inside() {
    let [a, b] = apart();
    let right = edits();
    let mut master = vec![0; 351];
    master[..5].copy_from_slice(&[0xF0, 0x10, 0x06, 0x03, 0x03]);
    master[350] = 0xF7;
    let others = [
        written(|out| write_patch(0, &a, out)),
        written(|out| write_patch(99, &b, out)),
        written(|out| write_edit_buffer(&b, out)),
        master,
        vec![0xF0, 0xF7],
        vec![0xF0, 0x10, 0x06, 0xF7],
        // Another maker, another device, operations.
        vec![0xF0, 0x41, 0x06, 0x06, 0x15, 0x7F, 0xF7],
        vec![0xF0, 0x10, 0x02, 0x06, 0x15, 0x7F, 0xF7],
        vec![0xF0, 0x10, 0x06, 0x04, 0x00, 0x00, 0xF7],
        vec![0xF0, 0x10, 0x06, 0x07, 0x02, 0x00, 0xF7],
        vec![0xF0, 0x10, 0x06, 0x0A, 0x05, 0xF7],
        vec![0xF0, 0x10, 0x06, 0x0C, 0xF7],
        vec![0xF0, 0x10, 0x06, 0x0E, 0x05, 0x01, 0x00, 0xF7],
    ];
    for other in others {
        assert!(!accepted(&a, &b, &other));
        assert!(!accepted(&a, &a, &other));
        for index in 0..=right.len() {
            let mut list = right.clone();
            list.insert(index, other.clone());
            assert!(!accepted(&a, &b, &list.concat()));
        }
    }
}

#[test]
fn real_time_inside_and_between() {
    let [a, b] = apart();
    let list = edits().concat();
    for place in 0..=list.len() {
        for tick in 0xF8..=0xFF {
            let mut ticking = list.clone();
            ticking.insert(place, tick);
            assert!(!accepted(&a, &b, &ticking), "{place}");
        }
    }
    assert!(!accepted(&a, &b, &with_real_time(&list)));
    for tick in 0xF8..=0xFF {
        assert!(!accepted(&a, &a, &[tick]));
    }
}

#[test]
fn bytes_between() {
    let [a, b] = apart();
    let right = edits();
    for byte in 0..=255 {
        for index in 0..=right.len() {
            let mut list = right.clone();
            list.insert(index, vec![byte]);
            assert!(!accepted(&a, &b, &list.concat()));
        }
        assert!(!accepted(&a, &a, &[byte]));
    }
}

/// A status byte in place of a value is no value, even where its lower bits are.
#[test]
fn values_with_bit_7() {
    for (place, stored, parameter) in [(19, 0xE0, 12), (86, 0xC0, 1), (103, 0xFF, 91)] {
        let b = p_with(place, &[stored]);
        assert!(accepted(&P, &b, &edit_message([parameter, stored & 0x7F])));
        assert!(!accepted(&P, &b, &edit_message([parameter, stored])));
    }
    let b = p_with(104, &[1, 0xFF, 1]);
    assert!(accepted(&P, &b, &bus_message([0, 1, 0x7F, 1])));
    assert!(!accepted(&P, &b, &bus_message([0, 1, 0xFF, 1])));
}

/// A message of one kind with the other's length, or the other's opcode.
#[test]
fn lengths_of_the_other_kind() {
    let b = p_with(26, &[0x7F]);
    assert!(accepted(
        &P,
        &b,
        &[0xF0, 0x10, 0x06, 0x06, 0x15, 0x7F, 0xF7]
    ));
    for list in [
        &[0xF0, 0x10, 0x06, 0x06, 0x15, 0x7F, 0x00, 0xF7][..],
        &[0xF0, 0x10, 0x06, 0x06, 0x15, 0x7F, 0x00, 0x00, 0xF7],
        &[0xF0, 0x10, 0x06, 0x06, 0x15, 0x7F],
        &[0xF0, 0x10, 0x06, 0x06, 0x15, 0xF7],
        &[0xF0, 0x10, 0x06, 0x0B, 0x15, 0x7F, 0xF7],
        &[0xF0, 0x10, 0x06, 0x06, 0x15, 0x7F, 0xF0],
        &[0x10, 0x06, 0x06, 0x15, 0x7F, 0xF7],
    ] {
        assert!(!accepted(&P, &b, list), "{list:02X?}");
    }
    let b = p_with(104, &[1, 0, 1]);
    assert!(accepted(&P, &b, &bus_message([0, 1, 0, 1])));
    for list in [
        &[0xF0, 0x10, 0x06, 0x0B, 0x00, 0x01, 0x00, 0xF7][..],
        &[0xF0, 0x10, 0x06, 0x0B, 0x00, 0x01, 0x00, 0x01, 0x00, 0xF7],
        &[0xF0, 0x10, 0x06, 0x06, 0x00, 0x01, 0x00, 0x01, 0xF7],
    ] {
        assert!(!accepted(&P, &b, list), "{list:02X?}");
    }
}

#[test]
fn every_edit_alone() {
    let mut random = Random::new(85);
    for _ in 0..100_000 {
        let a = inputs::good_patch(&mut random);
        let [parameter, value] = inputs::edit(&mut random);
        let list = edit_message([parameter, value]);
        let mut b = a;
        let applied = reference::apply_edit(&mut b, parameter, value);
        assert_eq!(accepted(&a, &b, &list), applied.answer == 0);

        let [bus, source, amount, destination] = inputs::bus_edit(&mut random);
        let list = bus_message([bus, source, amount, destination]);
        let mut b = a;
        let applied = reference::apply_bus_edit(&mut b, bus, source, amount, destination);
        assert_eq!(accepted(&a, &b, &list), applied.answer == 0);
    }
}

//! The planner: one message for each part that differs, by rising byte place, and no other byte
//! written.

use reference::streams::plans::{all_apart, pair};
use reference::streams::{inputs, Random};
use reference::{check_plan, plan, reports, test_patch, LONGEST_PLAN};

use crate::kit::{bus_message, edit_message, outcome, p_with, P};
use crate::{model, plan_model};

/// The list for two patches, which must be good and of one name. It is accepted, and it is empty
/// exactly when they are equal.
pub fn list(a: &[u8], b: &[u8]) -> Vec<u8> {
    let mut out = vec![0xA5; LONGEST_PLAN + 9];
    let done = plan(a, b, &mut out);
    assert_eq!(done, outcome(0, done.detail));
    assert!(out[done.detail..].iter().all(|&byte| byte == 0xA5));
    out.truncate(done.detail);
    assert_eq!(check_plan(a, b, &out), outcome(0, 0));
    assert_eq!(out.is_empty(), a == b);
    out
}

/// Pairs of good patches of one name from seeds.
pub fn good_pairs(random: &mut Random, count: usize) -> Vec<[Vec<u8>; 2]> {
    std::iter::repeat_with(|| pair(random))
        .filter(|[a, b]| plan_model::refusal(a, b).is_none())
        .take(count)
        .collect()
}

#[test]
fn as_the_papers_say_it() {
    let mut random = Random::new(60);
    let mut met = [0; 21];
    for _ in 0..40_000 {
        let [a, b] = pair(&mut random);
        let length = random.pick(&[0, 7, 700, 761, 762, 763, 900]);
        let before = inputs::bytes(&mut random, length);
        let mut out = before.clone();
        let (expected, list) = plan_model::planned(&a, &b, length);
        assert_eq!(plan(&a, &b, &mut out), expected);
        assert_eq!(out[..list.len()], list);
        assert_eq!(out[list.len()..], before[list.len()..]);
        met[usize::from(expected.answer)] += 1;
    }
    assert!((0..21).all(|answer| [0, 7, 11, 12, 13, 16].contains(&answer) == (met[answer] > 0)));
}

#[test]
fn one_message_for_each_part_that_differs() {
    let mut random = Random::new(61);
    for [a, b] in good_pairs(&mut random, 5_000) {
        let list = list(&a, &b);
        let parameters = (8..104).filter(|&place| a[place] != b[place]).count();
        let buses = (104..134).step_by(3);
        let buses = buses.filter(|&place| a[place..place + 3] != b[place..place + 3]);
        let buses = buses.count();
        assert_eq!(reports(&list).count(), parameters + buses);
        assert_eq!(list.len(), 7 * parameters + 9 * buses);

        // By rising byte place, each once.
        let messages = reports(&list).map(|report| {
            let number = list[report.start + 4];
            match report.detail {
                0x06 => usize::from(reference::place_of(number).unwrap()),
                _ => 104 + 3 * usize::from(number),
            }
        });
        let places: Vec<usize> = messages.collect();
        assert!(places.is_sorted_by(|lower, higher| lower < higher));
    }
}

#[test]
fn the_longest_list() {
    let mut random = Random::new(62);
    let [a, b] = all_apart(&mut random);
    let list = list(&a, &b);
    assert_eq!(list.len(), LONGEST_PLAN);
    assert_eq!(LONGEST_PLAN, 762);
    assert_eq!(reports(&list).count(), 106);
    assert_eq!(list, plan_model::edits(&a, &b).concat());
}

#[test]
fn every_value_of_every_parameter() {
    let fields = model::fields();
    for place in 8..104 {
        let parameter = fields[place].0.unwrap();
        let allowed: Vec<u8> = (0..=255)
            .filter(|&byte| model::allows(&fields, place, byte))
            .collect();
        for &before in &allowed {
            for &after in &allowed {
                let [a, b] = [before, after].map(|byte| p_with(place, &[byte]));
                let mut out = [0xA5; 8];
                if before == after {
                    assert_eq!(plan(&a, &b, &mut out), outcome(0, 0));
                    assert_eq!(out, [0xA5; 8]);
                    continue;
                }
                assert_eq!(plan(&a, &b, &mut out), outcome(0, 7));
                assert_eq!(out[..7], edit_message([parameter, after & 0x7F]));
                assert_eq!(out[7], 0xA5);
                assert_eq!(check_plan(&a, &b, &out[..7]), outcome(0, 0));
            }
        }
    }
}

#[test]
fn values_with_a_sign_are_sent_in_seven_bits() {
    for (place, byte, message) in [
        (19, 0xE0, edit_message([12, 0x60])),
        (19, 0xFF, edit_message([12, 0x7F])),
        (19, 0x1F, edit_message([12, 0x1F])),
        (86, 0xC0, edit_message([1, 0x40])),
        (103, 0xFF, edit_message([91, 0x7F])),
        (103, 0x3F, edit_message([91, 0x3F])),
    ] {
        assert_eq!(list(&P, &p_with(place, &[byte])), message);
    }
    // As stored, and not extended.
    for value in [0x3F, 0x40, 0x7F] {
        let b = p_with(26, &[value]);
        assert_eq!(list(&P, &b), edit_message([21, value]));
        let higher = edit_message([21, value ^ 0x40]);
        assert_eq!(check_plan(&P, &b, &higher), outcome(20, 0));
    }
}

#[test]
fn buses() {
    let used = [1, 0xFF, 1];
    for bus in 0..10 {
        let place = 104 + 3 * usize::from(bus);
        for (before, after) in [
            // The amount alone, of an unused bus too.
            (used, [1, 0x01, 1]),
            ([0, 0, 0], [0, 0xC0, 0]),
            ([0, 0x3F, 0], [0, 0, 0]),
            // The source alone, the destination alone.
            (used, [20, 0xFF, 1]),
            (used, [1, 0xFF, 32]),
            // Source and destination both to zero, and from zero.
            (used, [0, 0xFF, 0]),
            (used, [0, 0, 0]),
            ([0, 0, 0], used),
            ([0, 0xFF, 0], used),
            // All three.
            ([20, 0xC0, 32], [2, 0x3F, 31]),
        ] {
            let [a, b] = [before, after].map(|bytes| p_with(place, &bytes));
            let [source, amount, destination] = after;
            let message = bus_message([bus, source, amount & 0x7F, destination]);
            assert_eq!(list(&a, &b), message);
        }
    }
}

#[test]
fn every_amount_of_a_bus() {
    for before in (0..=0x3F).chain(0xC0..=0xFF) {
        for after in (0..=0x3F).chain(0xC0..=0xFF) {
            let [a, b] = [before, after].map(|amount| p_with(128, &[7, amount, 9]));
            let expected = match before == after {
                true => Vec::new(),
                false => bus_message([8, 7, after & 0x7F, 9]),
            };
            assert_eq!(list(&a, &b), expected);
        }
    }
}

#[test]
fn outputs_of_every_length() {
    let mut random = Random::new(63);
    let mut pairs = good_pairs(&mut random, 40);
    pairs.push(all_apart(&mut random));
    for [a, b] in pairs {
        let list = plan_model::edits(&a, &b).concat();
        for length in 0..=list.len() + 12 {
            let before = inputs::bytes(&mut random, length);
            let mut out = before.clone();
            let answer = plan(&a, &b, &mut out);
            if length < list.len() {
                assert_eq!(answer, outcome(13, 0));
                assert_eq!(out, before);
            } else {
                assert_eq!(answer, outcome(0, list.len()));
                assert_eq!(out[..list.len()], list);
                assert_eq!(out[list.len()..], before[list.len()..]);
            }
        }
    }
}

#[test]
fn empty_exactly_when_the_patches_are_equal() {
    let mut random = Random::new(64);
    for _ in 0..2_000 {
        let a = inputs::good_patch(&mut random);
        assert_eq!(plan(&a, &a, &mut []), outcome(0, 0));
        assert_eq!(check_plan(&a, &a, &[]), outcome(0, 0));
    }
    for [a, b] in good_pairs(&mut random, 2_000) {
        let answer = if a == b { 0 } else { 20 };
        assert_eq!(check_plan(&a, &b, &[]), outcome(answer, 0));
    }
}

#[test]
fn lists_joined_lead_on() {
    let mut random = Random::new(65);
    for [a, b] in good_pairs(&mut random, 2_000) {
        let mut c = inputs::good_patch(&mut random);
        c[..8].copy_from_slice(&a[..8]);
        let (first, second, back) = (list(&a, &b), list(&b, &c), list(&b, &a));
        let on = [&first[..], &second].concat();
        assert_eq!(check_plan(&a, &c, &on), outcome(0, 0));
        let home = [&first[..], &back].concat();
        assert_eq!(check_plan(&a, &a, &home), outcome(0, 0));
        // The way back sets what the way there does.
        assert_eq!(first.len(), back.len());
        // No list is shorter than the planner's.
        assert!(list(&a, &c).len() <= on.len());
        assert_eq!(test_patch(&c), outcome(0, 0));
    }
}

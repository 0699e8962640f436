//! What the planner and its checker refuse, and in which order.

use reference::streams::{inputs, Random};
use reference::{check_plan, outside, plan, Outcome, LONGEST_PLAN};

use crate::kit::{bass, edit_message, found, glide, outcome, p_with, refuses, P};
use crate::model;

/// The planner and the checker both refuse, with any output and any list.
fn both_refuse(a: &[u8], b: &[u8], refusal: Outcome) {
    for length in [0, LONGEST_PLAN] {
        refuses(length, refusal, |out| plan(a, b, out));
    }
    for list in [&[][..], &[0xF0], &edit_message([21, 1])] {
        assert_eq!(check_plan(a, b, list), refusal);
    }
}

/// A lent patch, and what it is refused by.
type Tested = (Vec<u8>, Option<Outcome>);

/// Patches named `BASS 1  `, good and bad in every way.
fn patches() -> Vec<Tested> {
    let good = glide();
    let with = |place: usize, byte: u8| {
        let mut patch = good.to_vec();
        patch[place] = byte;
        patch
    };
    let mut worst = with(133, 0);
    worst[100] = 0x40;
    vec![
        (Vec::new(), Some(outcome(7, 0))),
        (good[..133].to_vec(), Some(outcome(7, 0))),
        (vec![0xFF; 135], Some(outcome(7, 0))),
        (with(0, 64), Some(found(0, 64))),
        (with(19, 0x80), Some(found(19, -128))),
        (with(76, 0), Some(found(76, 0))),
        (with(132, 0xBF), Some(found(132, -65))),
        (with(104, 0), Some(outcome(12, 0))),
        (with(133, 0), Some(outcome(12, 9))),
        (worst, Some(found(100, 64))),
        (good.to_vec(), None),
        (with(26, 99), None),
        (bass().to_vec(), None),
    ]
}

/// Each patch before each other, with the same name or another, with a list that is right, wrong or
/// none, and with room or without: the first patch's refusal, the second's, 16, then 20 or 13.
#[test]
fn the_order_of_all_combinations() {
    let mut met = [0; 21];
    for (a, bad_a) in patches() {
        for (b, bad_b) in patches() {
            for renamed in [false, true] {
                let mut b = b.clone();
                // Of the eight, a place that is good in all of them.
                if let Some(character) = b.get_mut(7).filter(|_| renamed) {
                    *character ^= 1;
                }
                let refusal = bad_a.or(bad_b);
                let refusal = refusal.or(renamed.then_some(outcome(16, 0)));
                if let Some(refusal) = refusal {
                    both_refuse(&a, &b, refusal);
                    met[usize::from(refusal.answer)] += 1;
                    continue;
                }
                let list = crate::planning::list(&a, &b);
                for length in 0..list.len() {
                    refuses(length, outcome(13, 0), |out| plan(&a, &b, out));
                    assert_eq!(check_plan(&a, &b, &list[..length]), outcome(20, 0));
                    met[13] += 1;
                }
                let longer = [&list[..], &[0xF7]].concat();
                assert_eq!(check_plan(&a, &b, &longer), outcome(20, 0));
                met[0] += 1;
            }
        }
    }
    assert!((0..21).all(|answer| [0, 7, 11, 12, 13, 16].contains(&answer) == (met[answer] > 0)));
}

#[test]
fn patches_of_every_length() {
    let mut random = Random::new(70);
    for length in 0..=140 {
        let refusal = outcome(7, 0);
        let mut patch = P.to_vec();
        patch.resize(length, 0);
        if length == 134 {
            assert_eq!(plan(&patch, &P, &mut []), outcome(0, 0));
            assert_eq!(check_plan(&P, &patch, &[]), outcome(0, 0));
            continue;
        }
        both_refuse(&patch, &P, refusal);
        both_refuse(&P, &patch, refusal);
        both_refuse(&patch, &patch, refusal);
        // Bytes of any value, beside a patch that is bad too: the first one's refusal.
        let any = inputs::bytes(&mut random, length);
        both_refuse(&any, &[0; 134], refusal);
        both_refuse(&[0; 134], &any, found(76, 0));
    }
}

#[test]
fn every_byte_out_of_range_at_every_place() {
    for place in 0..134 {
        for byte in outside(place as u8) {
            let bad = p_with(place, &[byte]);
            let refusal = found(place, model::value(place, byte));
            both_refuse(&bad, &P, refusal);
            both_refuse(&P, &bad, refusal);
            both_refuse(&bad, &bad, refusal);
            // Half used buses come behind, and so does another patch.
            let half = p_with(104, &[0, 0, 1]);
            both_refuse(&half, &bad, outcome(12, 0));
            both_refuse(&bad, &half, refusal);
        }
    }
}

#[test]
fn half_used_buses() {
    for bus in 0..10 {
        let place = 104 + 3 * bus;
        for bytes in [[1, 0, 0], [20, 0xFF, 0], [0, 0, 1], [0, 0x3F, 32]] {
            let half = p_with(place, &bytes);
            let refusal = outcome(12, bus);
            both_refuse(&half, &P, refusal);
            both_refuse(&P, &half, refusal);
            // The lowest of several.
            let mut all = half;
            (bus..10).for_each(|bus| all[104 + 3 * bus..][..3].copy_from_slice(&bytes));
            both_refuse(&all, &half, refusal);
        }
    }
}

#[test]
fn names_that_differ_in_one_character() {
    let mut random = Random::new(71);
    for place in 0..8 {
        for byte in 0..=63 {
            let a = inputs::good_patch(&mut random);
            let mut b = a;
            b[place] = byte;
            if a == b {
                assert_eq!(plan(&a, &b, &mut []), outcome(0, 0));
            } else {
                both_refuse(&a, &b, outcome(16, 0));
            }
            // Whatever else differs.
            let mut c = inputs::good_patch(&mut random);
            c[..8].copy_from_slice(&b[..8]);
            if a[..8] != c[..8] {
                both_refuse(&a, &c, outcome(16, 0));
            }
        }
    }
}

/// 16 is given exactly when both are good and the names differ.
#[test]
fn names_are_asked_for_behind_the_patches() {
    let named = bass();
    let mut bad = P;
    bad[100] = 0x40;
    both_refuse(&named, &P, outcome(16, 0));
    both_refuse(&P, &named, outcome(16, 0));
    both_refuse(&bad, &named, found(100, 64));
    both_refuse(&named, &bad, found(100, 64));
    both_refuse(&named, &P[..133], outcome(7, 0));
    both_refuse(&P[..8], &named, outcome(7, 0));
    // A name's character out of range is 11, not 16.
    both_refuse(&P, &p_with(3, &[64]), found(3, 64));
}

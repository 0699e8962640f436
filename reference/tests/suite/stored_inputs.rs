//! The stored files that are made are what their names say.

use std::collections::BTreeSet;

use reference::streams::stored::{
    new_kind, new_name, new_of, old_kind, old_name, old_of, stored_input, stored_new, CYCLE,
    HOSTILE_NEWS, HOSTILE_OLDS, NEWS, OLDS,
};
use reference::streams::Random;
use reference::{from_stored, reports, to_stored, LONGEST_DUMPS, LONGEST_STORED};

/// What is answered, with room enough.
fn answers(old: &[u8], new: &[u8]) -> (u8, u8) {
    let there = to_stored(old, &mut [0; LONGEST_STORED]);
    let back = from_stored(new, &mut [0; LONGEST_DUMPS]);
    (there.answer, back.answer)
}

#[test]
fn a_seed_always_makes_the_same_files() {
    for seed in 0..3 * CYCLE {
        assert_eq!(stored_input(seed), stored_input(seed));
        assert_eq!(stored_new(seed), stored_new(seed));
    }
    assert_ne!(stored_input(4), stored_input(4 + 2 * HOSTILE_OLDS as u64));
}

#[test]
fn names_of_kinds_differ() {
    let olds: BTreeSet<_> = (0..OLDS).map(old_name).collect();
    let news: BTreeSet<_> = (0..NEWS).map(new_name).collect();
    assert_eq!((olds.len(), news.len()), (OLDS, NEWS));
}

#[test]
fn consecutive_seeds_make_every_kind_and_half_of_them_good() {
    for from in [0, 1, 1_000, u64::MAX - 2 * CYCLE] {
        let olds: BTreeSet<_> = (from..from + CYCLE).map(old_kind).collect();
        let news: BTreeSet<_> = (from..from + CYCLE).map(new_kind).collect();
        assert!(olds.into_iter().eq(0..OLDS) && news.into_iter().eq(0..NEWS));
    }
    for seed in (1..2_000).step_by(2) {
        assert_eq!(answers(&stored_input(seed), &stored_new(seed)), (0, 0));
    }
}

/// Files are mostly small, and some have about a hundred patches.
#[test]
fn sizes() {
    let old: Vec<usize> = (0..2_000).map(|seed| stored_input(seed).len()).collect();
    let new: Vec<usize> = (0..2_000).map(|seed| stored_new(seed).len()).collect();
    let small = |lengths: &[usize], most| lengths.iter().filter(|&&length| length <= most).count();
    assert!(small(&old, 3_000) > 1_400 && small(&new, 1_000) > 1_600);
    for count in [99, 100, 101] {
        assert!(old.contains(&(275 * count)) && old.contains(&(275 * count + 351)));
        assert!(new.contains(&(10 + 135 * count)) && new.contains(&(182 + 135 * count)));
    }
    for size in 65_535..=65_537 {
        assert!(old.contains(&size) && new.contains(&size));
    }
}

/// The answers that keep their number.
const KEPT: [u8; 8] = [2, 3, 7, 8, 9, 10, 11, 12];

#[test]
fn kinds_of_old_files() {
    let mut random = Random::new(240);
    for kind in 0..OLDS {
        let name = old_name(kind);
        let met: BTreeSet<u8> = (0..600)
            .map(|_| to_stored(&old_of(&mut random, kind), &mut [0; LONGEST_STORED]).answer)
            .collect();
        // Those that must be met, and others that may be.
        let (must, may): (&[u8], &[u8]) = match name {
            _ if kind >= HOSTILE_OLDS => (&[0], &[]),
            "any bytes" | "header noise" | "a new file" => (&[15], &KEPT),
            "a stream" => (&[2, 3, 15], &[0, 7, 8, 9, 10, 11, 12]),
            "a patch number not allowed" => (&[8], &[]),
            "a patch out of range" => (&[11], &[]),
            "a patch half used" => (&[12], &[]),
            "a refused message" | "refused and too many" | "refused behind a fault of form" => {
                (&KEPT, &[])
            }
            // A fault of form may end a message that is cut.
            "refused before a fault of form" => (&KEPT[1..], &[2, 15]),
            "refused twice" => (&KEPT[1..], &[]),
            "cut" => (&[2], &[0]),
            "damaged" => (&[0, 3, 7, 9, 10, 15], &KEPT),
            _ => (&[15], &[]),
        };
        let must: BTreeSet<u8> = must.iter().copied().collect();
        let all = must
            .union(&may.iter().copied().collect())
            .copied()
            .collect();
        assert!(
            met.is_superset(&must) && met.is_subset(&all),
            "{name}: {met:?}"
        );
    }
}

#[test]
fn kinds_of_new_files() {
    let mut random = Random::new(241);
    for kind in 0..NEWS {
        let name = new_name(kind);
        let met: BTreeSet<u8> = (0..2_000)
            .map(|_| from_stored(&new_of(&mut random, kind), &mut [0; LONGEST_DUMPS]).answer)
            .collect();
        let expected: &[u8] = match name {
            _ if kind >= HOSTILE_NEWS => &[0],
            "a patch number not allowed" => &[8],
            "a patch out of range" => &[11],
            "a patch half used" => &[12],
            "a record bad in all ways" => &[8, 11],
            "several bad records" | "a bad record of many" => &[8, 11, 12],
            "damaged" => &[0, 8, 11, 12, 15],
            _ => &[15],
        };
        let expected: BTreeSet<u8> = expected.iter().copied().collect();
        assert_eq!(met, expected, "{name}");
    }
}

/// Good old files have numbers in every order, a master or none, real time or none.
#[test]
fn good_old_files() {
    let (mut orders, mut others) = (BTreeSet::new(), BTreeSet::new());
    for seed in (1..4_000).step_by(2) {
        let old = stored_input(seed);
        let mut new = vec![0; LONGEST_STORED];
        assert_eq!(to_stored(&old, &mut new).answer, 0);
        let numbers: Vec<u8> = (0..new[0])
            .map(|index| new[10 + 135 * usize::from(index)])
            .collect();
        if numbers.len() > 2 {
            let rising = numbers.is_sorted_by(|one, next| one < next);
            let falling = numbers.is_sorted_by(|one, next| one > next);
            let equal = numbers.is_sorted_by(|one, next| one == next);
            orders.insert([rising, falling, equal]);
        }
        let noisy = reports(&old).any(|report| report.noise > 0);
        others.insert((new[4] == 1, noisy));
    }
    // Each of the three, and none.
    assert_eq!((orders.len(), others.len()), (4, 4));
}

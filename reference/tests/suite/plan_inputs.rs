//! The pairs and lists that are made for the planner and its checker are what their names say.

use std::collections::BTreeSet;

use reference::streams::plans::{list, list_name, list_of, pair, pair_name, pair_of, LISTS, PAIRS};
use reference::streams::Random;
use reference::{check_plan, plan, LONGEST_PLAN};

use crate::plan_model;
use crate::planning::good_pairs;

#[test]
fn a_seed_always_makes_the_same_pair_and_list() {
    let made = |seed| {
        let mut random = Random::new(seed);
        let pair = pair(&mut random);
        let list = list(&mut random, &pair);
        (pair, list)
    };
    for seed in 0..200 {
        assert_eq!(made(seed), made(seed));
    }
    assert_ne!(made(1), made(2));
}

#[test]
fn names_of_kinds_differ() {
    let pairs: BTreeSet<_> = (0..PAIRS).map(pair_name).collect();
    let lists: BTreeSet<_> = (0..LISTS).map(list_name).collect();
    assert_eq!((pairs.len(), lists.len()), (PAIRS, LISTS));
}

/// The planner's answers to pairs of each kind.
#[test]
fn kinds_of_pairs() {
    let mut random = Random::new(110);
    for kind in 0..PAIRS {
        let mut answers = BTreeSet::new();
        let mut parts = BTreeSet::new();
        for _ in 0..2_000 {
            let [a, b] = pair_of(&mut random, kind);
            let answer = plan(&a, &b, &mut [0; LONGEST_PLAN]).answer;
            answers.insert(answer);
            if answer == 0 {
                parts.insert(plan_model::edits(&a, &b).len());
            }
        }
        let name = pair_name(kind);
        let expected = match name {
            // A length that isn't quite the right one is the right one now and then.
            "wrong lengths" => vec![0, 7],
            "bad first" | "both bad" | "bad second" | "mended" | "spoilt" => vec![11, 12],
            "other name" | "other name and more" => vec![16],
            _ => vec![0],
        };
        assert_eq!(answers, expected.into_iter().collect(), "{name}");
        let (least, greatest) = match name {
            "all apart" => (106, 106),
            "buses apart" => (10, 10),
            "few apart" => (1, 6),
            "a bus apart" | "a parameter apart" | "a signed parameter apart" => (1, 1),
            "equal" => (0, 0),
            _ => (0, 106),
        };
        assert!(
            parts.iter().all(|parts| (least..=greatest).contains(parts)),
            "{name}"
        );
    }
}

/// How the lists of each kind fare that are made for good pairs which differ.
#[test]
fn kinds_of_lists() {
    let mut random = Random::new(111);
    let mut pairs = good_pairs(&mut random, 400);
    pairs.retain(|[a, b]| a != b);
    for kind in 0..LISTS {
        let name = list_name(kind);
        let mut answers = BTreeSet::new();
        for pair in &pairs {
            let list = list_of(&mut random, kind, pair);
            answers.insert(check_plan(&pair[0], &pair[1], &list).answer);
        }
        let expected = match name {
            "hundreds of edits" | "detours" | "needless edits" | "twice over" | "another order"
            | "right" => vec![0],
            // A byte or an edit that is needless may be another, and a value may have no bit 6.
            "cut"
            | "byte replaced"
            | "neighbours exchanged"
            | "an edit refused"
            | "an edit missing"
            | "an edit too many"
            | "seven bits as eight" => vec![0, 20],
            _ => vec![20],
        };
        let expected: BTreeSet<u8> = expected.into_iter().collect();
        assert!(answers.is_subset(&expected), "{name}: {answers:?}");
        assert!(
            answers.contains(expected.last().unwrap()),
            "{name}: {answers:?}"
        );
    }
}

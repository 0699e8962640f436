//! A search for the shortest list, breadth first, which knows nothing of the planner: it tries edits
//! on patches until one is the patch to arrive at.

use std::collections::HashSet;

use reference::streams::plans::{pair_of, PAIRS};
use reference::streams::{inputs, Random};
use reference::{apply_bus_edit, apply_edit, check_plan, parameter_of, reports};

use crate::kit::{bus_message, edit_message, outcome, p_with, P};
use crate::planning::list;
use crate::{model, plan_model};

type Patch = [u8; 134];

/// An edit as it is sent.
#[derive(Clone, Copy)]
enum Edit {
    Parameter([u8; 2]),
    Bus([u8; 4]),
}

impl Edit {
    /// The patch after the edit, if it is allowed.
    fn on(self, patch: &Patch) -> Option<Patch> {
        let mut patch = *patch;
        let applied = match self {
            Self::Parameter([parameter, value]) => apply_edit(&mut patch, parameter, value),
            Self::Bus([bus, source, amount, destination]) => {
                apply_bus_edit(&mut patch, bus, source, amount, destination)
            }
        };
        (applied.answer == 0).then_some(patch)
    }

    fn message(self) -> Vec<u8> {
        match self {
            Self::Parameter(bytes) => edit_message(bytes).to_vec(),
            Self::Bus(bytes) => bus_message(bytes),
        }
    }
}

/// The bytes that two patches have at a place, 0, and others.
fn bytes_at(random: &mut Random, place: usize, a: &Patch, b: &Patch, others: usize) -> Vec<u8> {
    let mut bytes = vec![a[place], b[place], 0];
    bytes.extend((0..others).map(|_| inputs::good_byte(random, place)));
    bytes.sort_unstable();
    bytes.dedup();
    bytes
}

/// The edits of a parameter to what either patch has, and to other values.
fn parameter_edits(random: &mut Random, place: usize, a: &Patch, b: &Patch) -> Vec<Edit> {
    let parameter = parameter_of(place as u8).unwrap();
    let values = bytes_at(random, place, a, b, 2);
    let edits = values.into_iter();
    edits
        .map(|byte| Edit::Parameter([parameter, byte & 0x7F]))
        .collect()
}

/// The edits of a bus to every combination of what either patch has, of zeros and of another source
/// or destination; half used ones too, which are refused.
fn bus_edits(random: &mut Random, bus: u8, a: &Patch, b: &Patch) -> Vec<Edit> {
    let place = 104 + 3 * usize::from(bus);
    let [sources, amounts, destinations] = [(place, 1), (place + 1, 0), (place + 2, 1)]
        .map(|(place, others)| bytes_at(random, place, a, b, others));
    let mut edits = Vec::new();
    for &source in &sources {
        for &amount in &amounts {
            for &destination in &destinations {
                edits.push(Edit::Bus([bus, source, amount & 0x7F, destination]));
            }
        }
    }
    edits
}

/// The edits that matter for two patches: those of every part that differs, and of a few others.
fn edits_that_matter(random: &mut Random, a: &Patch, b: &Patch) -> Vec<Edit> {
    let mut edits = Vec::new();
    for place in 8..104 {
        if a[place] != b[place] || random.one_in(48) {
            edits.extend(parameter_edits(random, place, a, b));
        }
    }
    for bus in 0..10 {
        let places = 104 + 3 * usize::from(bus)..107 + 3 * usize::from(bus);
        if a[places.clone()] != b[places] {
            edits.extend(bus_edits(random, bus, a, b));
        } else if random.one_in(10) {
            let [_, source, amount, destination] = inputs::good_bus_edit(random);
            edits.push(Edit::Bus([bus, source, amount, destination]));
        }
    }
    edits
}

/// A shortest list of these edits from one patch to another, if one has at most so many.
fn search(a: &Patch, b: &Patch, edits: &[Edit], most: usize) -> Option<Vec<Edit>> {
    let mut seen = HashSet::from([*a]);
    let mut reached = vec![(*a, Vec::new())];
    for _ in 0..=most {
        if let Some((_, list)) = reached.iter().find(|(patch, _)| patch == b) {
            return Some(list.clone());
        }
        let mut next = Vec::new();
        for (patch, list) in &reached {
            for &edit in edits {
                let Some(patch) = edit.on(patch).filter(|&patch| seen.insert(patch)) else {
                    continue;
                };
                next.push((patch, [&list[..], &[edit]].concat()));
            }
        }
        reached = next;
    }
    None
}

/// The search finds a list as long as the planner's, and none that is shorter.
fn searched(random: &mut Random, a: &Patch, b: &Patch) -> usize {
    let edits = edits_that_matter(random, a, b);
    let planned = list(a, b);
    let length = reports(&planned).count();
    let found = search(a, b, &edits, length).expect("the planner's edits are among these");
    assert_eq!(found.len(), length);
    let found: Vec<u8> = found.into_iter().flat_map(Edit::message).collect();
    assert_eq!(check_plan(a, b, &found), outcome(0, 0));
    length
}

#[test]
fn the_search_finds_none_that_is_shorter() {
    let mut random = Random::new(90);
    // So many pairs that differ in no part, in one, in two and in three.
    let wanted = [10, 60, 60, 12];
    let mut met = [0; 4];
    while met != wanted {
        let kind = random.below(PAIRS);
        let [a, b] = pair_of(&mut random, kind);
        if plan_model::refusal(&a, &b).is_some() {
            continue;
        }
        let parts = plan_model::edits(&a, &b).len();
        if parts > 3 || met[parts] == wanted[parts] {
            continue;
        }
        let [a, b] = [a, b].map(|patch| Patch::try_from(patch).unwrap());
        assert_eq!(searched(&mut random, &a, &b), parts);
        met[parts] += 1;
    }
}

/// Two or three buses at once, in every way that a bus can change.
#[test]
fn the_search_on_buses() {
    let mut random = Random::new(91);
    let used = [3, 0x10, 5];
    let ways = [
        (used, [0, 0x10, 0]),
        ([0, 0x10, 0], used),
        (used, [3, 0xF0, 5]),
        (used, [4, 0x10, 6]),
        ([0, 0, 0], [0, 0x3F, 0]),
    ];
    for first in ways {
        for second in ways {
            let [mut a, mut b] = [P, P];
            for (place, (before, after)) in [(104, first), (131, second)] {
                a[place..place + 3].copy_from_slice(&before);
                b[place..place + 3].copy_from_slice(&after);
            }
            assert_eq!(searched(&mut random, &a, &b), 2);
        }
    }
}

/// Every 06H edit and every 0BH edit that there is.
fn every_edit() -> impl Iterator<Item = Edit> {
    let parameters = (0..100)
        .flat_map(|parameter| (0..=127).map(move |value| Edit::Parameter([parameter, value])));
    let buses = (0..10).flat_map(|bus| {
        (0..=20).flat_map(move |source| {
            (0..=127).flat_map(move |amount| {
                (0..=32).map(move |destination| Edit::Bus([bus, source, amount, destination]))
            })
        })
    });
    parameters.chain(buses)
}

/// Where one part differs, one edit of all that there are leads there; where two do, none.
#[test]
fn one_edit_of_all() {
    let pairs = [
        (P, p_with(26, &[0x40]), 1),
        (P, p_with(19, &[0xE0]), 1),
        (P, p_with(131, &[20, 0xC0, 32]), 1),
        (p_with(104, &[1, 0xFF, 1]), p_with(104, &[1, 0x3F, 1]), 1),
        (p_with(104, &[1, 0xFF, 1]), P, 1),
        (P, p_with(8, &[1, 1]), 2),
        (p_with(101, &[0xFF]), p_with(104, &[0, 0x01, 0]), 2),
        (P, p_with(104, &[1, 0, 1, 1, 0, 1]), 2),
        (P, p_with(128, &[0, 1, 0, 0, 1, 0]), 2),
    ];
    for (a, b, parts) in pairs {
        assert_eq!(plan_model::edits(&a, &b).len(), parts);
        let planned = list(&a, &b);
        let leading: Vec<Vec<u8>> = every_edit()
            .filter(|edit| edit.on(&a) == Some(b))
            .map(Edit::message)
            .collect();
        match parts {
            1 => assert_eq!(leading, [planned]),
            _ => assert!(leading.is_empty()),
        }
    }
}

/// No edit of all that there are changes two parts, or a character of the name.
#[test]
fn an_edit_changes_one_part() {
    let mut random = Random::new(92);
    let fields = model::fields();
    let a = inputs::good_patch(&mut random);
    for edit in every_edit() {
        let Some(b) = edit.on(&a) else {
            continue;
        };
        assert_eq!(a[..8], b[..8]);
        let changed = (8..134).filter(|&place| a[place] != b[place]);
        let mut parts: Vec<usize> = changed
            .map(|place| match fields[place].0 {
                Some(_) => place,
                None => place - (place - 104) % 3,
            })
            .collect();
        parts.dedup();
        assert!(parts.len() <= 1);
    }
}

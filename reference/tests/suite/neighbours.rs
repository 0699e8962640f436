//! Slipped neighbours: two unequal bytes exchanged among a dump's data and checksum, or the two
//! nibbles of a packed byte replaced by values below 80H. And what is not so.

use std::collections::{BTreeMap, BTreeSet};

use reference::streams::damage::{damageable, low_nibble, Damage};
use reference::streams::{inputs, stream, Random};
use reference::{is_real_time, reports, show_name, walk, write_master, write_patch, Outcome};

use crate::kit::{
    bass, found, glide, outcome, record, report, report_outcome, with_sum, written, P, SPLIT,
};
use crate::model;
use crate::undamaged::{by_turns, dumps, placed, Undamaged, DATA};

/// The refusal of unequal neighbours exchanged, the first of them at `index` in the data.
///
/// 9 at 267 for the last nibble and a checksum above 15, which then stands among the data; 10 for
/// all others. A low nibble counts once in the sum and a high one 16 times, so two nibbles that
/// differ by d move it by 15d. The last nibble and a checksum that differ by d move the computed
/// sum by 16d and the received one by d the other way, 17d apart. With d from 1 to 15 neither is a
/// multiple of 128. No field is ever tested.
pub fn exchanged(index: usize, second: u8) -> Outcome {
    if index + 1 == DATA && second > 15 {
        outcome(9, index)
    } else {
        outcome(10, 0)
    }
}

/// The refusal of two neighbouring bytes of a dump's data, the first of them at `index`, replaced
/// by values below 80H of which at least one is different.
///
/// 9 at the first value above 15. With two nibbles the sum moves as far as the low one and 16 times
/// as far as the high one. That is a multiple of 128 only if the low one stays and the high one is
/// moved by 8; otherwise 10. The high one's packed byte has then moved by 128, out of its range: 11
/// at its place with its value, whether the low one is of that byte or of the next.
fn replaced(data: &[u8], index: usize, new: [u8; 2]) -> Outcome {
    if new[0] > 15 {
        return outcome(9, index);
    }
    if new[1] > 15 {
        return outcome(9, index + 1);
    }
    let (low, high) = if index.is_multiple_of(2) {
        (0, 1)
    } else {
        (1, 0)
    };
    let old = &data[index..index + 2];
    if new[low] == old[low] && new[high].abs_diff(old[high]) == 8 {
        let place = index / 2;
        let byte = data[2 * place] + 16 * data[2 * place + 1];
        found(place, model::value(place, byte ^ 0x80))
    } else {
        outcome(10, 0)
    }
}

/// The refusal of either of the two, at data of a dump in a stream.
fn refusal(undamaged: &Undamaged, damage: Damage) -> Outcome {
    let index = |at| at - undamaged.data().start;
    match damage {
        Damage::Exchange { at } => exchanged(index(at), undamaged.stream[at + 1]),
        Damage::ReplaceTwo { at, bytes } => {
            let data = &undamaged.stream[undamaged.data()];
            replaced(data, index(at), bytes)
        }
        _ => panic!("{damage:?}"),
    }
}

/// Demand 3 with the refusal said above; gives how often each was met.
fn refuses_all(
    undamaged: &Undamaged,
    damages: impl Iterator<Item = Damage>,
) -> BTreeMap<(u8, usize), usize> {
    let mut met = BTreeMap::new();
    for damage in damages {
        let expected = refusal(undamaged, damage);
        undamaged.refuses(damage, expected);
        *met.entry((expected.answer, expected.detail)).or_default() += 1;
    }
    met
}

/// Every exchange among data and checksum.
fn exchanges(undamaged: &Undamaged) -> BTreeMap<(u8, usize), usize> {
    let places = damageable(undamaged.start);
    refuses_all(undamaged, Damage::every_exchange(&undamaged.stream, places))
}

/// Every pair of values below 80H at an index in the data.
fn pairs(undamaged: &Undamaged, index: usize) -> BTreeMap<(u8, usize), usize> {
    let at = undamaged.data().start + index;
    refuses_all(undamaged, Damage::every_pair(&undamaged.stream, at))
}

/// Patches with a sum above 15, below 16, or equal to the last nibble.
fn patches() -> [[u8; 134]; 6] {
    let mut random = Random::new(60);
    [
        bass(),
        P,
        glide(),
        with_sum(glide(), 2),
        with_sum(inputs::good_patch(&mut random), 0x0F),
        with_sum(inputs::good_patch(&mut random), 0x10),
    ]
}

#[test]
fn every_exchange_among_data_and_checksum() {
    let last = patches().map(|patch| [patch[133] / 16, dumps(0, &patch)[0][273]]);
    assert_eq!(last[..4], [[0, 0x3B], [0, 0x01], [2, 0x47], [2, 0x02]]);
    for patch in patches() {
        let [dump, _] = dumps(0, &patch);
        let unequal = (5..273).filter(|&at| dump[at] != dump[at + 1]).count();
        let wide = usize::from(dump[273] > 15);
        for undamaged in placed(&patch) {
            let met = exchanges(&undamaged);
            assert_eq!(met.get(&(9, 267)).copied().unwrap_or(0), wide);
            assert_eq!(met[&(10, 0)], unequal - wide);
        }
    }
}

#[test]
fn exchanges_in_many_dumps() {
    let mut random = Random::new(61);
    for _ in 0..100 {
        for undamaged in placed(&inputs::good_patch(&mut random)) {
            exchanges(&undamaged);
        }
    }
}

#[test]
fn exchanges_for_each_last_nibble_and_sum() {
    let (mut wide, mut narrow) = (0, 0);
    for destination in [1, 16, 32] {
        let mut patch = bass();
        patch[131..].copy_from_slice(&[20, 0xC0, destination]);
        for sum in 0..128 {
            for dump in dumps(99, &with_sum(patch, sum)) {
                assert_eq!(dump[272..274], [destination / 16, sum]);
                let undamaged = Undamaged::new(&[], &dump, &[]);
                exchanges(&undamaged);
                // The last nibble and the checksum once more, by themselves.
                let last = Damage::every_exchange(&undamaged.stream, 272..274);
                let met = refuses_all(&undamaged, last);
                wide += met.get(&(9, 267)).unwrap_or(&0);
                narrow += met.get(&(10, 0)).unwrap_or(&0);
            }
        }
    }
    // Both kinds; each last nibble meets one sum that is equal to it.
    assert_eq!(wide, 2 * 3 * 112);
    assert_eq!(narrow, 2 * 3 * 15);
}

/// Four dumps of both kinds, each in other surroundings.
fn four() -> Vec<Undamaged> {
    let [bass, _, glide, _, below, above] = patches();
    by_turns(&[bass, glide, below, above])
}

/// How often each refusal is met by all the pairs at an index.
fn all_pairs(index: usize) -> BTreeMap<(u8, usize), usize> {
    BTreeMap::from([
        ((9, index), 112 * 128),
        ((9, index + 1), 16 * 112),
        ((10, 0), 16 * 16 - 2),
        ((11, index / 2), 1),
    ])
}

#[test]
fn every_pair_of_values_below_80h_in_a_packed_byte() {
    // A name's first byte, detune, the byte of seven bits, the one that isn't 0, an amount, the
    // first destination and the last.
    for packed in [0, 19, 26, 76, 90, 106, 133] {
        for undamaged in four() {
            let index = 2 * packed;
            assert_eq!(pairs(&undamaged, index), all_pairs(index));
        }
    }
}

#[test]
#[cfg_attr(debug_assertions, ignore = "slow without optimisation")]
fn every_pair_of_values_below_80h_in_every_packed_byte() {
    for undamaged in &four()[..2] {
        for index in (0..DATA).step_by(2) {
            assert_eq!(pairs(undamaged, index), all_pairs(index));
        }
    }
}

#[test]
fn every_pair_of_values_below_80h_across_two_packed_bytes() {
    for packed in [0, 25, 26, 75, 131, 132] {
        for undamaged in four() {
            let index = 2 * packed + 1;
            assert_eq!(pairs(&undamaged, index), all_pairs(index));
        }
    }
}

/// Every pair of values below 16 at a place and the next, but the pair that stands there.
fn every_pair_of_nibbles(stream: &[u8], at: usize) -> impl Iterator<Item = Damage> {
    Damage::every_pair(stream, at).filter(|damage| match damage {
        Damage::ReplaceTwo { bytes, .. } => bytes.iter().all(|&byte| byte <= 15),
        _ => false,
    })
}

#[test]
fn every_pair_of_nibbles_everywhere() {
    for undamaged in four() {
        for (index, at) in undamaged.data().enumerate().take(DATA - 1) {
            let pairs = every_pair_of_nibbles(&undamaged.stream, at);
            let met = refuses_all(&undamaged, pairs);
            let expected = [((10, 0), 254), ((11, index / 2), 1)];
            assert_eq!(met, BTreeMap::from(expected));
        }
    }
}

/// Whether two bytes are replaced by values below 80H.
fn below_80h(damage: &Damage) -> bool {
    matches!(damage, Damage::ReplaceTwo { bytes, .. } if bytes.is_ascii())
}

#[test]
fn both_in_streams_of_many_seeds() {
    let mut random = Random::new(62);
    for seed in 0..2_000 {
        let patch = inputs::good_patch(&mut random);
        let number = random.byte_within(0..=99);
        let [numbered, buffer] = dumps(number, &patch);
        let dump = random.pick(&[&numbered, &buffer]);
        let (before, after) = (stream(2 * seed), stream(2 * seed + 1));
        if before.len() + after.len() > 10_000 {
            continue;
        }
        let undamaged = Undamaged::new(&before, dump, &after);
        let Undamaged { stream, start, .. } = &undamaged;
        for _ in 0..4 {
            let exchange = Damage::exchange(&mut random, stream, damageable(*start));
            refuses_all(&undamaged, exchange.into_iter());
            let pair = Damage::replace_two(&mut random, stream, undamaged.data());
            refuses_all(&undamaged, pair.into_iter().filter(below_80h));
        }
    }
}

// What isn't so.

/// P named `BASS 1  `, and source 1 to destination 1 on bus 9, as number 0.
fn accepted_dump() -> Vec<u8> {
    let mut patch = bass();
    patch[131..].copy_from_slice(&[1, 1, 1]);
    let dump = written(|out| write_patch(0, &patch, out));
    // B and A, the destination, the sum.
    assert_eq!(dump[5..9], [0x02, 0x00, 0x01, 0x00]);
    assert_eq!(dump[271..], [0x01, 0x00, 0x3E, 0xF7]);
    dump
}

/// The patch of a dump that is accepted as number 0.
fn accepted(dump: &[u8]) -> Vec<u8> {
    assert_eq!(walk(dump, 0), report(0, 275, 0, 1));
    record(dump, 0).1
}

fn name(patch: &[u8]) -> [u8; 8] {
    let mut name = [0; 8];
    assert_eq!(show_name(patch, &mut name), outcome(0, 8));
    name
}

#[test]
fn bytes_two_apart_exchanged_are_accepted() {
    let mut dump = accepted_dump();
    dump.swap(5, 7);
    assert_eq!(&name(&accepted(&dump)), b"ABSS 1  ");
}

#[test]
fn two_low_nibbles_changed_are_accepted() {
    let mut dump = accepted_dump();
    dump[5] += 1;
    dump[7] -= 1;
    assert_eq!(&name(&accepted(&dump)), b"C@SS 1  ");
}

#[test]
fn the_last_nibble_and_the_checksum_replaced_are_accepted() {
    let mut dump = accepted_dump();
    let bytes = [0x01, 0x4E];
    Damage::ReplaceTwo { at: 272, bytes }.apply(&mut dump);
    assert_eq!(accepted(&dump)[131..], [1, 1, 17]);
}

#[test]
fn equal_neighbours_exchanged_are_accepted() {
    let mut dump = accepted_dump();
    let before = dump.clone();
    assert_eq!(dump[21..23], [0x00, 0x00]);
    Damage::Exchange { at: 21 }.apply(&mut dump);
    assert_eq!(dump, before);
    assert_eq!(&name(&accepted(&dump)), b"BASS 1  ");
}

#[test]
fn the_same_two_nibbles_are_accepted() {
    let mut dump = accepted_dump();
    let before = dump.clone();
    let bytes = [0x02, 0x00];
    Damage::ReplaceTwo { at: 5, bytes }.apply(&mut dump);
    assert_eq!(dump, before);
    assert_eq!(&name(&accepted(&dump)), b"BASS 1  ");
}

#[test]
fn an_exchange_with_the_start_moves_the_end_before() {
    let dump = accepted_dump();
    let mut stream = [&[0xF0, 0x41], &dump[..]].concat();
    let before = [report(0, 2, 3, 0), report(2, 277, 0, 1)];
    assert_eq!(reports(&stream).collect::<Vec<_>>(), before);
    Damage::Exchange { at: 2 }.apply(&mut stream);
    let after = [report(0, 3, 3, 0), report(3, 277, 4, 0)];
    assert_eq!(reports(&stream).collect::<Vec<_>>(), after);
}

#[test]
fn an_exchange_of_the_end_with_a_start_loses_the_message_behind() {
    let dump = accepted_dump();
    let mut stream = [&dump[..], &dump].concat();
    Damage::Exchange { at: 274 }.apply(&mut stream);
    let after = [report(0, 274, 3, 0), report(274, 276, 4, 0)];
    assert_eq!(reports(&stream).collect::<Vec<_>>(), after);
}

/// What the walk answers to a damaged master.
fn answered(master: &[u8], damage: Damage) -> Outcome {
    let mut damaged = master.to_vec();
    damage.apply(&mut damaged);
    let found = walk(&damaged, 0);
    assert_eq!((found.start, found.end), (0, 351));
    report_outcome(&found)
}

#[test]
fn neighbours_exchanged_in_a_master() {
    // Refused as in a patch.
    let mut random = Random::new(67);
    for _ in 0..200 {
        let master = inputs::bytes(&mut random, 172);
        let dump = written(|out| write_master(&master, out));
        for damage in Damage::every_exchange(&dump, 5..350) {
            let wide = damage == Damage::Exchange { at: 348 } && dump[349] > 15;
            let expected = if wide {
                outcome(9, 343)
            } else {
                outcome(10, 0)
            };
            assert_eq!(answered(&dump, damage), expected);
        }
    }
}

#[test]
fn a_nibble_pair_of_a_master() {
    // Accepted exactly when the low one stays and the high one is moved by 8.
    let mut random = Random::new(68);
    for _ in 0..5 {
        let master = inputs::bytes(&mut random, 172);
        let dump = written(|out| write_master(&master, out));
        for packed in 0..172 {
            let at = low_nibble(0, packed);
            let moved = [dump[at], dump[at + 1] ^ 8];
            for damage in every_pair_of_nibbles(&dump, at) {
                let kept = damage == Damage::ReplaceTwo { at, bytes: moved };
                let expected = if kept { outcome(0, 3) } else { outcome(10, 0) };
                assert_eq!(answered(&dump, damage), expected);
            }
        }
    }
}

#[test]
fn an_edit_begun_in_a_master_is_accepted() {
    let mut master = [0; 172];
    master[170..].copy_from_slice(&[0x60, 0x56]);
    let mut dump = written(|out| write_master(&master, out));
    assert_eq!(dump[346..], [0x06, 0x06, 0x05, 0x36, 0xF7]);
    let bytes = [0xF0, 0x10];
    Damage::ReplaceTwo { at: 344, bytes }.apply(&mut dump);
    let found: Vec<_> = reports(&dump).collect();
    assert_eq!(found, [report(0, 344, 3, 0), report(344, 351, 0, 6)]);
    assert_eq!(record(&dump, 344).0.bytes, [0x05, 0x36, 0, 0]);
}

#[test]
fn a_split_begun_in_a_master_is_accepted() {
    let mut master = [0; 172];
    master[152..154].copy_from_slice(&[0x60, 0x52]);
    master[154..].copy_from_slice(&SPLIT);
    // With this the bytes before the split add nothing to the sum.
    master[0] = 0x4E;
    let mut dump = written(|out| write_master(&master, out));
    assert_eq!(dump[310..315], [0x06, 0x02, 0x05, 0x0B, 0x00]);
    assert_eq!(dump[347..], [0x02, 0x00, 0x35, 0xF7]);
    let bytes = [0xF0, 0x10];
    Damage::ReplaceTwo { at: 308, bytes }.apply(&mut dump);
    let found: Vec<_> = reports(&dump).collect();
    assert_eq!(found, [report(0, 308, 3, 0), report(308, 351, 0, 2)]);
    let (reading, packed) = record(&dump, 308);
    assert_eq!(reading.bytes, [5, 0, 0, 0]);
    assert_eq!(packed, SPLIT);
}

// What makes the damages.

#[test]
fn any_makes_five_sorts_and_keeps_to_their_conditions() {
    let mut random = Random::new(69);
    let mut met = BTreeSet::new();
    for _ in 0..20_000 {
        let patch = inputs::good_patch(&mut random);
        let dump = written(|out| write_patch(0, &patch, out));
        let damage = Damage::any(&mut random, &dump, damageable(0));
        met.extend(sorts(&dump, damage));
    }
    let sorts = [
        "replaced",
        "lost",
        "added",
        "exchanged",
        "last nibble and checksum",
        "two replaced",
        "sum kept",
        "sum kept across two packed bytes",
        "nibbles",
        "below 80H",
        "header begun",
        "real time only",
        "status or real time",
    ];
    assert_eq!(met, sorts.into());
}

/// What a damage to a written dump is, with its conditions.
fn sorts(dump: &[u8], damage: Damage) -> Vec<&'static str> {
    let places = damageable(0);
    match damage {
        Damage::Replace { at, byte } => {
            assert!(places.contains(&at) && dump[at] != byte);
            vec!["replaced"]
        }
        Damage::Lose { at } => {
            assert!(places.contains(&at));
            vec!["lost"]
        }
        Damage::Insert { at, byte } => {
            assert!(places.contains(&at) && !is_real_time(byte));
            vec!["added"]
        }
        Damage::Exchange { at } => {
            assert!(places.contains(&at) && places.contains(&(at + 1)));
            assert_ne!(dump[at], dump[at + 1]);
            match at {
                272 => vec!["exchanged", "last nibble and checksum"],
                _ => vec!["exchanged"],
            }
        }
        Damage::ReplaceTwo { at, bytes } => {
            // Both are data.
            assert!((5..272).contains(&at));
            assert_ne!(dump[at..at + 2], bytes);
            let data = &dump[5..273];
            vec!["two replaced", sort_of_two(data, at - 5, bytes)]
        }
    }
}

/// What two bytes that replace others of the data are.
fn sort_of_two(data: &[u8], index: usize, new: [u8; 2]) -> &'static str {
    let kept = replaced(data, index, new).answer == 11;
    match new {
        _ if kept && index.is_multiple_of(2) => "sum kept",
        _ if kept => "sum kept across two packed bytes",
        [..=0x0F, ..=0x0F] => "nibbles",
        [..=0x7F, ..=0x7F] => "below 80H",
        [0xF0, 0x10] => "header begun",
        [0xF8..=0xFF, 0xF8..=0xFF] => "real time only",
        _ => "status or real time",
    }
}

#[test]
fn the_enumerations_leave_nothing_out() {
    let dump = accepted_dump();
    let found: Vec<_> = Damage::every_exchange(&dump, damageable(0)).collect();
    let unequal = (5..273).filter(|&at| dump[at] != dump[at + 1]);
    let expected: Vec<_> = unequal.map(|at| Damage::Exchange { at }).collect();
    assert_eq!(found, expected);
    // Both bytes are among the places.
    assert_eq!(Damage::every_exchange(&dump, 272..273).count(), 0);
    assert_eq!(Damage::every_exchange(&dump, 272..274).count(), 1);

    let at = low_nibble(0, 133);
    assert_eq!(dump[at..at + 2], [0x01, 0x00]);
    let found: BTreeSet<_> = Damage::every_pair(&dump, at).map(pair_at(at)).collect();
    assert_eq!(found.len(), 128 * 128 - 1);
    assert!(!found.contains(&[0x01, 0x00]) && found.contains(&[0x7F, 0x7F]));
    assert!(found.iter().all(|bytes| bytes.is_ascii()));
    // The pair that stands there is none of them where it isn't below 80H.
    assert_eq!(Damage::every_pair(&dump, 0).count(), 128 * 128);
    let found: BTreeSet<_> = Damage::every_wide_pair(&dump, at)
        .map(pair_at(at))
        .collect();
    assert_eq!(found.len(), 256 * 256 - 1);
}

/// The two bytes put at this place.
fn pair_at(place: usize) -> impl Fn(Damage) -> [u8; 2] {
    move |damage| match damage {
        Damage::ReplaceTwo { at, bytes } if at == place => bytes,
        _ => panic!("{damage:?}"),
    }
}

//! The stored file of a unit: both forms byte for byte, the ways there and back, the outputs that
//! are lent.

use reference::streams::inputs::{bytes, good_patch, output, with_active_sensing};
use reference::streams::stored::{stored_input, stored_new};
use reference::streams::Random;
use reference::{
    from_stored, reports, to_stored, write_bank, write_master, write_patch, PlacedOutcome,
    LONGEST_DUMPS, LONGEST_STORED,
};

use crate::kit::{bass, dump, glide, less_real_time, outcome, placed, with_real_time, written, P};
use crate::stored_model::{self, Answer};

/// Either way.
type Way = fn(&[u8], &mut [u8]) -> PlacedOutcome;
/// The same by the model, with room for so many bytes.
type Slowly = fn(&[u8], usize) -> Answer;

/// What is written into a long enough output; it must be done.
fn done(way: Way, file: &[u8]) -> Vec<u8> {
    let mut out = vec![0xA5; LONGEST_DUMPS + 3];
    let answer = way(file, &mut out);
    let length = answer.detail;
    assert_eq!(answer, placed(0, outcome(0, length)));
    assert!(out[length..].iter().all(|&byte| byte == 0xA5));
    out.truncate(length);
    out
}

/// The new form of an old file.
pub fn stored(old: &[u8]) -> Vec<u8> {
    done(to_stored, old)
}

/// The old form of a new file.
pub fn restored(new: &[u8]) -> Vec<u8> {
    done(from_stored, new)
}

/// A way refuses a file so, whatever output is lent, and keeps it.
pub fn refuses_so(way: Way, file: &[u8], refusal: PlacedOutcome) {
    for length in [LONGEST_DUMPS, 10, 0] {
        let mut out = vec![0xA5; length];
        assert_eq!(way(file, &mut out), refusal);
        assert!(out.iter().all(|&byte| byte == 0xA5));
    }
}

/// Both forms of one file.
fn forms(old: &[u8], new: &[u8]) {
    assert_eq!(stored(old), new);
    assert_eq!(restored(new), old);
}

/// Patches with their numbers, and a master, as our writer writes them.
fn dumps(patches: &[(u8, [u8; 134])], master: Option<&[u8]>) -> Vec<u8> {
    let patches = patches
        .iter()
        .map(|(number, patch)| written(|out| write_patch(*number, patch, out)));
    let master = master.map(|master| written(|out| write_master(master, out)));
    patches.chain(master).flatten().collect()
}

/// Some patches with any numbers.
fn numbered(random: &mut Random, count: usize) -> Vec<(u8, [u8; 134])> {
    let patches = (0..count).map(|_| (random.byte_within(0..=99), good_patch(random)));
    patches.collect()
}

// Both forms.

#[test]
fn nothing_is_ten_bytes() {
    forms(&[], &[0, 0, 10, 0, 0, 0, 10, 0, 10, 0]);
}

#[test]
fn a_patch() {
    let header = [1, 0, 10, 0, 0, 0, 145, 0, 145, 0];
    for number in [0, 7, 99] {
        let new = [&header[..], &[number], &P].concat();
        forms(&dump(0x01, number, &P), &new);
    }
}

#[test]
fn a_master() {
    let header = [0, 0, 10, 0, 1, 0, 10, 0, 182, 0];
    // Any bytes will do.
    for byte in 0..=255 {
        let master = [byte; 172];
        forms(&dump(0x03, 3, &master), &[&header[..], &master].concat());
    }
}

#[test]
fn patches_and_a_master() {
    let mut random = Random::new(200);
    let master = bytes(&mut random, 172);
    let old = [
        dump(0x01, 99, &bass()),
        dump(0x01, 0, &P),
        dump(0x01, 99, &glide()),
        dump(0x03, 3, &master),
    ];
    // 415 and 587.
    let header = [3, 0, 10, 0, 1, 0, 0x9F, 0x01, 0x4B, 0x02];
    let new = [
        &header[..],
        &[99],
        &bass(),
        &[0],
        &P,
        &[99],
        &glide(),
        &master,
    ];
    forms(&old.concat(), &new.concat());
    // 415 is the length too where there is no master.
    let header = [3, 0, 10, 0, 0, 0, 0x9F, 0x01, 0x9F, 0x01];
    let new = [&header[..], &new[1..7].concat()];
    forms(&old[..3].concat(), &new.concat());
}

#[test]
fn every_number_of_patches() {
    let mut random = Random::new(201);
    let patches = numbered(&mut random, 100);
    let master = bytes(&mut random, 172);
    for count in 0..=100 {
        for master in [None, Some(&master[..])] {
            let old = dumps(&patches[..count], master);
            let new = stored(&old);
            let masters = usize::from(master.is_some());
            let numbers = [count, 10, masters, 10 + 135 * count, new.len()];
            let header = numbers.map(|number| (number as u16).to_le_bytes());
            assert_eq!(new[..10], header.concat());
            assert_eq!(new.len(), 10 + 135 * count + 172 * masters);
            for (record, (number, patch)) in new[10..].chunks(135).zip(&patches[..count]) {
                assert_eq!((record[0], &record[1..]), (*number, &patch[..]));
            }
            assert!(new.ends_with(master.unwrap_or_default()));
            assert_eq!(restored(&new), old);
        }
    }
}

#[test]
fn the_longest() {
    assert_eq!((LONGEST_DUMPS, LONGEST_STORED), (27_851, 13_682));
    let mut random = Random::new(202);
    let master = bytes(&mut random, 172);
    let old = dumps(&numbered(&mut random, 100), Some(&master));
    let new = stored(&old);
    assert_eq!((old.len(), new.len()), (LONGEST_DUMPS, LONGEST_STORED));
    // 13,510 and 13,682.
    assert_eq!(new[..10], [100, 0, 10, 0, 1, 0, 0xC6, 0x34, 0x72, 0x35]);
}

#[test]
fn order_is_kept_and_numbers_may_repeat() {
    let named = |name: u8| {
        let mut patch = P;
        patch[..8].fill(name);
        patch
    };
    for numbers in [[0, 1, 2, 3], [3, 2, 1, 0], [5, 5, 5, 5], [99, 0, 99, 0]] {
        let patches: Vec<_> = numbers.into_iter().zip((1..).map(named)).collect();
        let new = stored(&dumps(&patches, None));
        for (index, record) in new[10..].chunks(135).enumerate() {
            assert_eq!(record[0], numbers[index]);
            assert_eq!(record[1..], named(1 + index as u8));
        }
        assert_eq!(restored(&new), dumps(&patches, None));
    }
    // The same dump again and again.
    let same = dump(0x01, 42, &bass()).repeat(100);
    assert_eq!(restored(&stored(&same)), same);
}

#[test]
fn a_bank_as_our_writer_writes_it() {
    let mut random = Random::new(203);
    for count in [1, 2, 99, 100] {
        let patches: Vec<u8> = (0..count).flat_map(|_| good_patch(&mut random)).collect();
        let mut old = vec![0; 275 * count];
        let answer = write_bank(&patches, &mut old);
        assert_eq!(answer, placed(0, outcome(0, old.len())));
        let new = stored(&old);
        let numbers = new[10..].chunks(135).map(|record| usize::from(record[0]));
        assert!(numbers.eq(0..count));
        assert_eq!(restored(&new), old);
    }
}

// Real time.

#[test]
fn real_time_at_every_place_inside_a_dump() {
    let mut random = Random::new(204);
    let master = bytes(&mut random, 172);
    let old = dumps(&[(3, bass()), (3, glide())], Some(&master));
    let new = stored(&old);
    for start in [0, 275, 550] {
        let length = if start == 550 { 351 } else { 275 };
        for at in start + 1..start + length {
            for byte in [0xF8, 0xFE, 0xFF] {
                let mut noisy = old.clone();
                noisy.insert(at, byte);
                assert_eq!(stored(&noisy), new);
            }
        }
    }
}

#[test]
fn real_time_inside_every_dump() {
    let mut random = Random::new(205);
    let master = bytes(&mut random, 172);
    let old = dumps(&numbered(&mut random, 100), Some(&master));
    let new = stored(&old);
    let noisy = |noise: &dyn Fn(&[u8]) -> Vec<u8>| -> Vec<u8> {
        let messages = reports(&old).map(|report| noise(&old[report.start..report.end]));
        messages.flatten().collect()
    };
    assert_eq!(stored(&noisy(&with_real_time)), new);
    for every in 1..20 {
        let sensed = noisy(&|dump| {
            let inside = with_active_sensing(&dump[1..dump.len() - 1], every);
            [&[0xF0], &inside[..], &[0xF7]].concat()
        });
        assert_eq!(stored(&sensed), new);
    }
    for run in [300, 70_000] {
        let runs = noisy(&|dump| [&dump[..9], &vec![0xFE; run], &dump[9..]].concat());
        assert_eq!(stored(&runs), new);
    }
}

// There and back.

#[test]
fn old_to_new_to_old_is_the_same_file() {
    let mut random = Random::new(206);
    for _ in 0..2_000 {
        let count = random.below(8);
        let patches = numbered(&mut random, count);
        let master = bytes(&mut random, 172);
        let master = random.one_in(2).then_some(&master[..]);
        let old = dumps(&patches, master);
        assert_eq!(restored(&stored(&old)), old);
    }
}

/// Of an accepted file with real time, what comes back is that file less its real time.
#[test]
fn every_accepted_old_file_comes_back_less_its_real_time() {
    let mut accepted = 0;
    for seed in 0..6_000 {
        let old = stored_input(seed);
        let mut new = vec![0; LONGEST_STORED];
        let answer = to_stored(&old, &mut new);
        if answer.answer == 0 {
            new.truncate(answer.detail);
            assert_eq!(restored(&new), less_real_time(&old), "seed {seed}");
            accepted += 1;
        }
    }
    assert!(accepted > 3_000, "{accepted}");
}

#[test]
fn every_accepted_new_file_is_the_same_again() {
    let mut accepted = 0;
    for seed in 0..6_000 {
        let new = stored_new(seed);
        let mut old = vec![0; LONGEST_DUMPS];
        let answer = from_stored(&new, &mut old);
        if answer.answer == 0 {
            old.truncate(answer.detail);
            assert_eq!(stored(&old), new, "seed {seed}");
            accepted += 1;
        }
    }
    assert!(accepted > 3_000, "{accepted}");
}

// Lent outputs.

#[test]
fn outputs_of_every_length() {
    let mut random = Random::new(207);
    let master = bytes(&mut random, 172);
    let old = dumps(&[(1, bass()), (1, glide())], Some(&master));
    let new = stored(&old);
    let files = [(&old, &new), (&Vec::new(), &stored(&[]))];
    for (old, new) in files {
        for (way, file, expected) in [(to_stored as Way, old, new), (from_stored as Way, new, old)]
        {
            for length in 0..expected.len() + 20 {
                let lent = bytes(&mut random, length);
                let mut out = lent.clone();
                let answer = way(file, &mut out);
                if length < expected.len() {
                    assert_eq!(answer, placed(0, outcome(13, 0)));
                    assert_eq!(out, lent);
                } else {
                    assert_eq!(answer, placed(0, outcome(0, expected.len())));
                    assert_eq!(out[..expected.len()], expected[..]);
                    assert_eq!(out[expected.len()..], lent[expected.len()..]);
                }
            }
        }
    }
}

/// One way answers and writes as the model does, and keeps all other bytes of its output.
fn as_the_model(random: &mut Random, way: Way, slowly: Slowly, file: &[u8]) -> u8 {
    let needed = slowly(file, usize::MAX).1.len();
    let lent = output(random, needed);
    let (expected, written) = slowly(file, lent.len());
    let mut out = lent.clone();
    assert_eq!(way(file, &mut out), expected);
    assert_eq!(out[..written.len()], written);
    assert_eq!(out[written.len()..], lent[written.len()..]);
    expected.answer
}

#[test]
fn old_files_of_many_seeds() {
    let mut random = Random::new(208);
    let mut met = [0; 16];
    for seed in 0..8_000 {
        let old = stored_input(seed);
        let answer = as_the_model(&mut random, to_stored, stored_model::to_stored, &old);
        met[usize::from(answer)] += 1;
    }
    let seldom = |&answer: &usize| met[answer] < 20;
    let answers = [0, 2, 3, 7, 8, 9, 10, 11, 12, 13, 15];
    assert_eq!(
        answers.iter().find(|answer| seldom(answer)),
        None,
        "{met:?}"
    );
    assert_eq!(
        met.iter().sum::<usize>(),
        answers.map(|answer| met[answer]).iter().sum()
    );
}

#[test]
fn new_files_of_many_seeds() {
    let mut random = Random::new(209);
    let mut met = [0; 16];
    for seed in 0..20_000 {
        let new = stored_new(seed);
        let answer = as_the_model(&mut random, from_stored, stored_model::from_stored, &new);
        met[usize::from(answer)] += 1;
    }
    let seldom = |&answer: &usize| met[answer] < 20;
    let answers = [0, 8, 11, 12, 13, 15];
    assert_eq!(
        answers.iter().find(|answer| seldom(answer)),
        None,
        "{met:?}"
    );
    assert_eq!(
        met.iter().sum::<usize>(),
        answers.map(|answer| met[answer]).iter().sum()
    );
}

#[test]
fn files_of_one_form_taken_for_the_other() {
    let mut random = Random::new(210);
    for seed in 0..2_000 {
        let (old, new) = (stored_input(seed), stored_new(seed));
        as_the_model(&mut random, to_stored, stored_model::to_stored, &new);
        as_the_model(&mut random, from_stored, stored_model::from_stored, &old);
    }
}

//! New files that are refused: headers and lengths before any record, then the first bad record.

use reference::streams::inputs::bytes;
use reference::streams::Random;
use reference::{from_stored, outside, test_patch, Outcome, PlacedOutcome};

use crate::kit::{bass, found, glide, outcome, p_with, placed, P};
use crate::model;
use crate::stored::{refuses_so, restored};

/// 15, whose place is 0.
const NOT_OF_THE_FORM: PlacedOutcome = placed(0, outcome(15, 0));

/// A new file is refused so.
fn refused(new: &[u8], refusal: PlacedOutcome) {
    refuses_so(from_stored, new, refusal);
}

/// A new file of patches with their numbers, and masters, whose header says so.
fn file(patches: &[(u8, [u8; 134])], masters: &[u8]) -> Vec<u8> {
    let offset = 10 + 135 * patches.len();
    let total = offset + masters.len();
    let numbers = [patches.len(), 10, masters.len() / 172, offset, total];
    let mut file = headed(numbers);
    for (number, patch) in patches {
        file.push(*number);
        file.extend(patch);
    }
    file.extend(masters);
    file
}

fn headed(numbers: [usize; 5]) -> Vec<u8> {
    numbers.map(|number| (number as u16).to_le_bytes()).concat()
}

/// A file of three patches and a master, and the same without it.
fn good_files() -> [Vec<u8>; 2] {
    let patches = [(99, bass()), (0, P), (99, glide())];
    let master = bytes(&mut Random::new(230), 172);
    [file(&patches, &master), file(&patches, &[])]
}

/// Good files of other sizes too.
fn all_sizes() -> Vec<Vec<u8>> {
    let master = [0x5A; 172];
    let hundred: Vec<_> = (0..100).map(|number| (number, glide())).collect();
    let mut files = good_files().to_vec();
    for count in [0, 1, 99, 100] {
        files.push(file(&hundred[..count], &[]));
        files.push(file(&hundred[..count], &master));
    }
    for new in &files {
        restored(new);
    }
    files
}

/// The numbers of a file's header.
fn numbers(new: &[u8]) -> [u16; 5] {
    std::array::from_fn(|index| u16::from_le_bytes([new[2 * index], new[2 * index + 1]]))
}

/// The same file with other numbers.
fn with_numbers(new: &[u8], numbers: [u16; 5]) -> Vec<u8> {
    [&numbers.map(u16::to_le_bytes).concat(), &new[10..]].concat()
}

// The header.

#[test]
fn every_value_of_every_number() {
    for new in good_files() {
        let right = numbers(&new);
        let mut out = vec![0xA5; 2_000];
        for index in 0..5 {
            for value in 0..=u16::MAX {
                let mut wrong = right;
                wrong[index] = value;
                if wrong != right {
                    let answer = from_stored(&with_numbers(&new, wrong), &mut out);
                    assert_eq!(answer, NOT_OF_THE_FORM, "{wrong:?}");
                }
            }
        }
        assert!(out.iter().all(|&byte| byte == 0xA5));
    }
}

#[test]
fn every_number_one_off_or_with_its_bytes_exchanged() {
    for new in all_sizes() {
        let right = numbers(&new);
        for index in 0..5 {
            let number = right[index];
            let others = [
                number.wrapping_add(1),
                number.wrapping_sub(1),
                number.swap_bytes(),
                number ^ 0x100,
                number ^ 0x8000,
                0,
                u16::MAX,
            ];
            for other in others.into_iter().filter(|&other| other != number) {
                let mut wrong = right;
                wrong[index] = other;
                refused(&with_numbers(&new, wrong), NOT_OF_THE_FORM);
            }
        }
        let high_first = right.map(u16::swap_bytes);
        refused(&with_numbers(&new, high_first), NOT_OF_THE_FORM);
    }
}

#[test]
fn numbers_exchanged() {
    for new in all_sizes() {
        let right = numbers(&new);
        for one in 0..5 {
            for other in 0..one {
                let mut wrong = right;
                wrong.swap(one, other);
                if wrong != right {
                    refused(&with_numbers(&new, wrong), NOT_OF_THE_FORM);
                }
            }
        }
    }
}

/// The offsets are there for none too.
#[test]
fn offsets_of_nothing() {
    let [_, without_master] = good_files();
    let mut wrong = numbers(&without_master);
    wrong[3] = 0;
    refused(&with_numbers(&without_master, wrong), NOT_OF_THE_FORM);
    refused(&headed([0, 10, 0, 0, 10]), NOT_OF_THE_FORM);
    refused(&headed([0, 0, 0, 10, 10]), NOT_OF_THE_FORM);
    refused(&headed([0, 0, 0, 0, 10]), NOT_OF_THE_FORM);
    refused(&headed([0, 0, 0, 0, 0]), NOT_OF_THE_FORM);
    assert_eq!(restored(&headed([0, 10, 0, 10, 10])), []);
}

#[test]
fn every_other_length() {
    for new in all_sizes() {
        for length in 0..new.len() {
            let answer = from_stored(&new[..length], &mut []);
            assert_eq!(answer, NOT_OF_THE_FORM);
        }
        for more in [1, 2, 10, 134, 135, 136, 172, 65_536] {
            let longer = [&new[..], &vec![0; more]].concat();
            refused(&longer, NOT_OF_THE_FORM);
        }
    }
}

/// The total says how long the file is, and isn't what it must be.
#[test]
fn totals_too_long_and_too_short() {
    for new in all_sizes() {
        let right = numbers(&new);
        for off in [-172, -135, -1, 1, 135, 172] {
            let Some(length) = new.len().checked_add_signed(off) else {
                continue;
            };
            let mut wrong = right;
            wrong[4] = length as u16;
            let mut other = with_numbers(&new, wrong);
            refused(&other, NOT_OF_THE_FORM);
            other.resize(length, 0);
            refused(&other, NOT_OF_THE_FORM);
        }
    }
}

#[test]
fn too_many_patches_and_masters() {
    let many: Vec<_> = (0..103).map(|index| (index % 100, P)).collect();
    let masters = [0; 3 * 172];
    for count in 101..=103 {
        refused(&file(&many[..count], &[]), NOT_OF_THE_FORM);
        refused(&file(&many[..count], &masters[..172]), NOT_OF_THE_FORM);
    }
    for count in [0, 1, 3, 100] {
        refused(&file(&many[..count], &masters[..2 * 172]), NOT_OF_THE_FORM);
        refused(&file(&many[..count], &masters), NOT_OF_THE_FORM);
    }
    // As many as the numbers can count.
    let counted = 65_535;
    refused(&headed([counted, 10, 0, 10, 10]), NOT_OF_THE_FORM);
    refused(&headed([0, 10, counted, 10, 10]), NOT_OF_THE_FORM);
    refused(&headed([counted; 5]), NOT_OF_THE_FORM);
}

/// 135 times a count wraps to what it is for a smaller one.
#[test]
fn counts_whose_offsets_wrap() {
    for count in 101..=65_535_usize {
        let offset = (10 + 135 * count) % 65_536;
        let new = [
            headed([count, 10, 0, offset, offset]),
            vec![0; offset.saturating_sub(10)],
        ];
        assert_eq!(from_stored(&new.concat(), &mut []), NOT_OF_THE_FORM);
    }
}

#[test]
fn a_master_first() {
    let [new, _] = good_files();
    let (records, master) = new[10..].split_at(405);
    let header = headed([3, 182, 1, 10, 587]);
    refused(&[&header, master, records].concat(), NOT_OF_THE_FORM);
    // The header as it must be: the first patch is then read from the master's bytes.
    let misread = [&new[..10], &[200; 172], records].concat();
    refused(&misread, placed(10, outcome(8, 0)));
}

/// Before any record is looked at.
#[test]
fn a_bad_header_before_bad_records() {
    let bad = file(&[(100, [0xFF; 134]), (255, [0; 134])], &[]);
    refused(&bad, placed(10, outcome(8, 0)));
    for index in 0..5 {
        let mut wrong = numbers(&bad);
        wrong[index] += 1;
        refused(&with_numbers(&bad, wrong), NOT_OF_THE_FORM);
    }
    refused(&bad[..bad.len() - 1], NOT_OF_THE_FORM);
    refused(&[&bad[..], &[0]].concat(), NOT_OF_THE_FORM);
}

#[test]
fn files_that_are_no_new_ones() {
    refused(&[], NOT_OF_THE_FORM);
    for byte in 0..=255 {
        for length in [1, 9, 10, 11, 145, 182, 13_682, 70_000] {
            refused(&vec![byte; length], NOT_OF_THE_FORM);
        }
    }
    for new in all_sizes() {
        let old = restored(&new);
        if !old.is_empty() {
            refused(&old, NOT_OF_THE_FORM);
        }
    }
}

// Records.

/// A file with a bad record at each index is refused so, with the record's start as place.
fn refused_at_each_index(number: u8, patch: [u8; 134], tested: Outcome) {
    for count in [1, 3] {
        for index in 0..count {
            for master in [&[][..], &[0xFF; 172]] {
                let mut patches = vec![(7, bass()); count];
                patches[index] = (number, patch);
                let place = 10 + 135 * index;
                refused(&file(&patches, master), placed(place, tested));
                // Whatever is behind it.
                patches.push((255, [0xFF; 134]));
                refused(&file(&patches, master), placed(place, tested));
            }
        }
    }
}

#[test]
fn every_number_of_a_patch() {
    for number in 0..=255 {
        if number <= 99 {
            restored(&file(&[(number, P)], &[]));
        } else {
            refused_at_each_index(number, P, outcome(8, 0));
            // It comes before what is wrong with the patch.
            refused_at_each_index(number, [0xFF; 134], outcome(8, 0));
        }
    }
}

#[test]
fn every_byte_out_of_range_at_every_place() {
    for place in 0..134_u8 {
        let at = usize::from(place);
        for byte in outside(place) {
            let patch = p_with(at, &[byte]);
            let tested = found(at, model::value(at, byte));
            let files = [
                file(&[(5, patch)], &[]),
                file(&[(5, P), (5, patch)], &[1; 172]),
            ];
            for (new, start) in files.iter().zip([10, 145]) {
                assert_eq!(from_stored(new, &mut []), placed(start, tested));
            }
        }
    }
    refused_at_each_index(99, [0; 134], found(76, 0));
    refused_at_each_index(99, p_with(19, &[0x80]), found(19, -128));
    refused_at_each_index(99, p_with(133, &[33]), found(133, 33));
}

#[test]
fn every_bus_half_used() {
    for bus in 0..10 {
        for at in [104 + 3 * bus, 106 + 3 * bus] {
            refused_at_each_index(0, p_with(at, &[1]), outcome(12, bus));
        }
    }
    // 11 comes before 12.
    let mut both = p_with(104, &[1]);
    both[133] = 33;
    assert_eq!(test_patch(&both), found(133, 33));
    refused_at_each_index(0, both, found(133, 33));
}

/// The last of a hundred records.
#[test]
fn the_last_record() {
    let mut patches = vec![(0, P); 100];
    patches[99] = (100, P);
    refused(&file(&patches, &[0; 172]), placed(13_375, outcome(8, 0)));
    patches[99] = (99, [0; 134]);
    refused(&file(&patches, &[0; 172]), placed(13_375, found(76, 0)));
    patches[99] = (99, p_with(131, &[1]));
    refused(&file(&patches, &[]), placed(13_375, outcome(12, 9)));
}

#[test]
fn a_master_has_no_test() {
    for byte in 0..=255 {
        restored(&file(&[(0, P)], &[byte; 172]));
    }
}

/// 13 is last.
#[test]
fn outputs_too_short() {
    for new in all_sizes() {
        let needed = restored(&new).len();
        for length in [0, needed / 2, needed.saturating_sub(1)] {
            if length < needed {
                let mut out = vec![0xA5; length];
                assert_eq!(from_stored(&new, &mut out), placed(0, outcome(13, 0)));
                assert!(out.iter().all(|&byte| byte == 0xA5));
            }
        }
    }
}

//! Demand 3, checked for every byte replaced, lost or added in a few dumps in a few streams, and
//! for damages of all sorts in many.

use reference::streams::damage::{damageable, Damage};
use reference::streams::{inputs, stream, Random};
use reference::{walk, write_edit_buffer, write_master, write_patch};

use crate::kit::{bass, bus_message, found, glide, report, reported, written, P};
use crate::model;
use crate::undamaged::Undamaged;

/// Every single damage to a dump in a stream.
fn survives_all(before: &[u8], dump: &[u8], after: &[u8]) {
    let undamaged = Undamaged::new(before, dump, after);
    let places = damageable(undamaged.start);
    assert_eq!(places.len(), 269);
    let mut count = 0;
    for damage in Damage::every(&undamaged.stream, places) {
        undamaged.survives(damage);
        count += 1;
    }
    assert_eq!(count, 269 * (255 + 248 + 1));
}

#[test]
fn a_dump_alone() {
    survives_all(&[], &written(|out| write_patch(0, &bass(), out)), &[]);
}

#[test]
fn an_edit_buffer_between_neighbours() {
    let mut random = Random::new(30);
    let patch = inputs::good_patch(&mut random);
    let dump = written(|out| write_edit_buffer(&patch, out));
    let number = written(|out| write_patch(98, &patch, out));
    let neighbour = [&[0x41, 0xF7, 0xFE], &number[..]].concat();
    let edit = [0xF0, 0x10, 0x06, 0x06, 0x15, 0x7F, 0xF7];
    survives_all(&neighbour, &dump, &[&edit[..], &number].concat());
}

#[test]
fn a_dump_between_messages_left_open() {
    let mut random = Random::new(31);
    let patch = inputs::good_patch(&mut random);
    let dump = written(|out| write_patch(99, &patch, out));
    survives_all(
        &[0xF0, 0x10, 0x06, 0x01, 0xFE],
        &dump,
        &[0x00, 0xF7, 0xF0, 0x10],
    );
}

#[test]
fn a_dump_whose_sum_is_the_manufacturer() {
    // The sum byte reads as 10H behind an F0H put before it.
    let mut patch = P;
    patch[9] = 15;
    let dump = written(|out| write_patch(6, &patch, out));
    assert_eq!(dump[273], 0x10);
    survives_all(&[0xF0], &dump, &[0x06, 0x06, 0x15, 0x7F, 0xF7]);
}

#[test]
fn dumps_that_route_a_lever_to_portamento_time() {
    let patch = glide();
    let number = written(|out| write_patch(41, &patch, out));
    let buffer = written(|out| write_edit_buffer(&patch, out));
    let taken = bus_message([9, 20, 0x40, 32]);
    let refused = bus_message([9, 20, 0x40, 33]);
    survives_all(&taken, &number, &refused);
    survives_all(&refused, &buffer, &[&number[..], &taken].concat());
}

#[test]
fn dumps_in_streams_of_many_seeds() {
    let mut random = Random::new(32);
    let mut noisy = [0; 2];
    for seed in 0..4_000 {
        let patch = inputs::good_patch(&mut random);
        let dump = if random.one_in(2) {
            written(|out| write_edit_buffer(&patch, out))
        } else {
            written(|out| write_patch(random.byte_within(0..=99), &patch, out))
        };
        let (before, after) = (stream(2 * seed), stream(2 * seed + 1));
        if before.len() + after.len() > 10_000 {
            continue;
        }
        let undamaged = Undamaged::new(&before, &dump, &after);
        for _ in 0..10 {
            let places = damageable(undamaged.start);
            undamaged.survives(Damage::any(&mut random, &undamaged.stream, places));
        }
        let [before, behind] = undamaged.noisy();
        noisy = [noisy[0] + before, noisy[1] + behind];
    }
    // Real time is compared on both sides.
    assert!(noisy.iter().all(|&count| count > 3_000), "{noisy:?}");
}

#[test]
fn a_nibble_of_a_master() {
    // Accepted exactly when it is a high one moved by 8.
    let mut random = Random::new(33);
    for _ in 0..20 {
        let master = inputs::bytes(&mut random, 172);
        let dump = written(|out| write_master(&master, out));
        for at in 5..349 {
            for nibble in (0..16).filter(|&nibble| nibble != dump[at]) {
                let mut damaged = dump.clone();
                damaged[at] = nibble;
                let high = (at - 5) % 2 == 1;
                let expected = if high && nibble ^ dump[at] == 8 {
                    report(0, 351, 0, 3)
                } else {
                    report(0, 351, 10, 0)
                };
                assert_eq!(walk(&damaged, 0), expected);
            }
        }
    }
}

#[test]
fn a_high_nibble_of_a_patch_moved_by_8() {
    // The sum stays; only the range test stops it.
    let mut random = Random::new(34);
    for _ in 0..200 {
        let patch = inputs::good_patch(&mut random);
        let dump = written(|out| write_patch(0, &patch, out));
        for place in 0..134 {
            let mut damaged = dump.clone();
            damaged[6 + 2 * place] ^= 8;
            let moved = found(place, model::value(place, patch[place] ^ 0x80));
            assert_eq!(walk(&damaged, 0), reported(0, 275, moved));
        }
    }
}

//! Hostile inputs at the limit of the programs, and far past it.

use reference::{listing, reports, walk};

use crate::kit::{noisy, report};

#[test]
fn inputs_of_one_byte_repeated() {
    for byte in [0x00, 0xF7, 0xFE] {
        let text = listing(&vec![byte; 65_536]);
        assert_eq!(text, b"start end answer detail value rt\nmessages 0\n");
    }
    let starts = vec![0xF0; 65_536];
    let mut expected = String::from("start end answer detail value rt\n");
    for place in 0..65_535 {
        expected += &format!("{place} {} 3 0 0 0\n", place + 1);
    }
    expected += "65535 65536 2 0 0 0\nmessages 65536\n";
    assert_eq!(String::from_utf8(listing(&starts)).unwrap(), expected);
}

#[test]
fn a_start_then_real_time_only() {
    for byte in 0xF8..=0xFF {
        let mut input = vec![byte; 65_536];
        input[0] = 0xF0;
        assert_eq!(
            listing(&input),
            b"start end answer detail value rt\n0 65536 2 0 0 65535\nmessages 1\n"
        );
        input[65_535] = 0xF7;
        assert_eq!(
            listing(&input),
            b"start end answer detail value rt\n0 65536 4 0 0 65534\nmessages 1\n"
        );
    }
}

#[test]
fn lengths_around_the_limit() {
    assert_eq!(
        listing(&[0; 65_535]),
        b"start end answer detail value rt\nmessages 0\n"
    );
    assert_eq!(listing(&vec![0xF0; 65_537]), b"input too long\n");
    assert_eq!(listing(&vec![0x00; 1 << 20]), b"input too long\n");
    assert_eq!(
        listing(&[]),
        b"start end answer detail value rt\nmessages 0\n"
    );
}

#[test]
fn long_messages_are_followed_to_their_end() {
    for (header, answer, noise) in [
        (&[0xF0, 0x41][..], 4, 0),
        (&[0xF0, 0x10, 0x02], 5, 0),
        (&[0xF0, 0x10, 0x06, 0x05], 6, 0),
        (&[0xF0, 0x10, 0x06, 0x01], 7, 0),
        (&[0xF0, 0x10, 0x06, 0x02], 7, 0),
        (&[0xF0, 0x10, 0x06, 0x0C], 7, 0),
        (&[0xF0, 0xFE, 0x10, 0xF8, 0x06, 0xFF, 0x03], 7, 3),
    ] {
        let mut input = vec![0x00; 65_536];
        input[..header.len()].copy_from_slice(header);
        input[65_535] = 0xF7;
        let expected = report(0, 65_536, answer, 0);
        assert_eq!(walk(&input, 0), noisy(noise, expected));
    }
}

#[test]
fn real_time_counts_toward_no_length() {
    // An edit spread over the whole input.
    let mut input = vec![0xFE; 65_536];
    for (index, byte) in [0xF0, 0x10, 0x06, 0x06, 0x15, 0x7F].into_iter().enumerate() {
        input[10_000 * index] = byte;
    }
    input[65_535] = 0xF7;
    let expected = report(0, 65_536, 0, 6);
    assert_eq!(walk(&input, 0), noisy(65_536 - 7, expected));
}

#[test]
#[cfg_attr(debug_assertions, ignore = "slow without optimisation")]
fn sixty_four_mebibytes_of_starts() {
    let length = 64 << 20;
    let input = vec![0xF0; length];
    let mut count = 0;
    for (place, found) in reports(&input).enumerate() {
        let answer = if place + 1 == length { 2 } else { 3 };
        assert_eq!(found, report(place, place + 1, answer, 0));
        count += 1;
    }
    assert_eq!(count, length);
}

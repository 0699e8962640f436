//! The cable reader of document 02, sentence by sentence.

use std::iter;

use reference::{CableReader, Fed, Report, LONGEST_STREAM};

use crate::cable_model::{took, without_message, Both, LIMIT};
use crate::kit::{
    bass, bus_message, come_with_it, dump, edit_message, found, noisy, operation_message, report,
    reported, OPERATIONS, P, SPLIT,
};

/// A call in which a message without a record ended.
fn refused(taken: usize, report: Report) -> Fed {
    Fed {
        taken,
        ended: true,
        report,
        bytes: [0; 4],
    }
}

/// A call in which a message with a record ended.
fn accepted(taken: usize, report: Report, bytes: [u8; 4]) -> Fed {
    Fed {
        bytes,
        ..refused(taken, report)
    }
}

/// A master of this packed byte.
fn master(byte: u8) -> Vec<u8> {
    let mut message = vec![0xF0, 0x10, 0x06, 0x03, 0x03];
    message.extend([byte % 16, byte / 16].repeat(172));
    message.extend([(u32::from(byte) * 172 % 128) as u8, 0xF7]);
    message
}

#[test]
fn document_01s_listing() {
    let input = [
        0x41, 0xF0, 0xF7, 0xF0, 0x10, 0x06, 0x06, 0x15, 0x7F, 0xF7, 0xF0,
    ];
    let mut both = Both::new();
    assert_eq!(both.feed(&input), refused(3, report(1, 3, 4, 0)));
    let edit = accepted(7, report(3, 10, 0, 6), [0x15, 0x7F, 0, 0]);
    assert_eq!(both.feed(&input[3..]), edit);
    assert_eq!(both.feed(&input[10..]), took(1));
    assert_eq!(both.end(), refused(0, report(10, 11, 2, 0)));
}

#[test]
fn all_bytes_are_taken_if_no_message_ends() {
    let mut both = Both::new();
    assert_eq!(both.feed(&[]), took(0));
    assert_eq!(both.feed(&[0x41, 0xF7, 0xFE, 0x90]), took(4));
    assert_eq!(both.feed(&[0x40, 0xF0, 0x10, 0xFE]), took(4));
    assert_eq!(both.feed(&[]), took(0));
    assert_eq!(both.feed(&[0xF8]), took(1));
    assert_eq!(both.feed(&[0x02]), took(1));
    let open = both.reader.open().unwrap();
    assert_eq!(
        (open.start, open.noise, open.content),
        (5, 2, &[0x10, 0x02][..])
    );
    assert_eq!(
        both.feed(&[0xF7, 0xF7]),
        refused(1, noisy(2, report(5, 11, 5, 0)))
    );
    assert_eq!(both.feed(&[0xF7]), took(1));
}

#[test]
fn the_byte_that_interrupts_is_not_taken() {
    for status in 0x80..=0xF6 {
        for before in [&[0xF0][..], &[0xF0, 0x10], &[0xF0, 0xFE, 0x10, 0xF8]] {
            let length = before.len();
            let noise = before.iter().filter(|&&byte| byte >= 0xF8).count();
            let ended = noisy(noise, report(0, length, 3, 0));
            // In the feed of the start.
            let mut both = Both::new();
            let all = [before, &[status, 0x40]].concat();
            assert_eq!(both.feed(&all), refused(length, ended));
            assert_eq!(both.feed(&[status]), took(1));
            // In a feed of its own, and fed again with more.
            let mut both = Both::new();
            assert_eq!(both.feed(before), took(length));
            assert_eq!(both.feed(&[status]), refused(0, ended));
            assert_eq!(both.feed(&[status, 0x40]), took(2));
            let start = (status == 0xF0).then_some(length);
            assert_eq!(both.reader.open().map(|open| open.start), start);
        }
    }
}

#[test]
fn a_feed_holds_many_messages_and_gives_one() {
    let edit = edit_message([0x15, 0x7F]);
    let stream = edit.repeat(50);
    let mut both = Both::new();
    for index in 0..50 {
        let start = 7 * index;
        let told = report(start, start + 7, 0, 6);
        let fed = both.feed(&stream[start..]);
        assert_eq!(fed, accepted(7, told, [0x15, 0x7F, 0, 0]));
    }
    assert_eq!(both.end(), without_message(1, 350));
}

#[test]
fn records_of_every_kind() {
    let patch = bass();
    let bytes = [9, 20, 0x40, 32];
    let messages = [
        (dump(0x01, 41, &patch), [41, 0, 0, 0], patch.to_vec()),
        (dump(0x02, 49, &SPLIT), [49, 0, 0, 0], SPLIT.to_vec()),
        (dump(0x0D, 0, &patch), [0; 4], patch.to_vec()),
        (master(0xB7), [0; 4], vec![0xB7; 172]),
        (edit_message([12, 0x60]).to_vec(), [12, 0x60, 0, 0], vec![]),
        (bus_message(bytes), bytes, vec![]),
    ];
    let operations = OPERATIONS.map(|(opcode, bytes)| {
        let message = operation_message(opcode, bytes);
        (message, come_with_it(bytes), vec![])
    });
    for (message, bytes, packed) in messages.into_iter().chain(operations) {
        let (length, opcode) = (message.len(), usize::from(message[3]));
        for at in 0..length {
            let mut both = Both::new();
            assert_eq!(both.feed(&message[..at]), took(at));
            assert!(both.reader.packed().is_empty());
            let told = report(0, length, 0, opcode);
            assert_eq!(
                both.feed(&message[at..]),
                accepted(length - at, told, bytes)
            );
            assert_eq!(both.reader.packed(), packed);
        }
    }
}

/// A reader that has just reported a dump.
fn behind_a_dump(taken: usize) -> Both {
    let mut both = Both::with_taken(taken);
    let told = report(taken, taken + 275, 0, 1);
    let fed = both.feed(&dump(0x01, 7, &P));
    assert_eq!(fed, accepted(275, told, [7, 0, 0, 0]));
    assert_eq!(both.reader.packed(), P);
    both
}

#[test]
fn packed_bytes_until_the_next_call() {
    for next in [&[][..], &[0x00], &[0xFE], &[0xF0], &[0xF0, 0xF7]] {
        let mut both = behind_a_dump(0);
        let _ = both.feed(next);
        assert!(both.reader.packed().is_empty());
    }
    let mut both = behind_a_dump(0);
    assert_eq!(both.end(), without_message(1, 275));
    assert!(both.reader.packed().is_empty());
    // The next dump's come instead.
    let mut both = behind_a_dump(0);
    let _ = both.feed(&dump(0x02, 0, &SPLIT));
    assert_eq!(both.reader.packed(), SPLIT);
    let _ = both.feed(&master(0x5A));
    assert_eq!(both.reader.packed(), [0x5A; 172]);
    let _ = both.feed(&dump(0x0D, 0, &bass()));
    assert_eq!(both.reader.packed(), bass());
    // A refused dump has none.
    let _ = both.feed(&dump(0x01, 100, &P));
    assert!(both.reader.packed().is_empty());
    let _ = both.feed(&dump(0x02, 50, &SPLIT));
    assert!(both.reader.packed().is_empty());
}

#[test]
fn a_refused_feed_keeps_the_packed_bytes() {
    let mut both = behind_a_dump(LIMIT - 275 - 3);
    for _ in 0..2 {
        assert_eq!(both.feed(&[0xF0; 4]), without_message(21, 0));
        assert_eq!(both.reader.packed(), P);
    }
    assert_eq!(both.feed(&[]), took(0));
    assert!(both.reader.packed().is_empty());
}

#[test]
fn the_value_found_and_the_noise_are_reported() {
    let mut patch = P;
    patch[19] = 0xDF;
    let message = dump(0x01, 0, &patch);
    let mut stream = vec![0xFE; 3];
    stream.extend(message.iter().flat_map(|&byte| [byte, 0xFE]));
    let told = noisy(274, reported(3, 3 + 2 * 275 - 1, found(19, -33)));
    for at in 4..stream.len() - 1 {
        let mut both = Both::new();
        assert_eq!(both.feed(&stream[..at]), took(at));
        let taken = 3 + 2 * 275 - 1 - at;
        assert_eq!(both.feed(&stream[at..]), refused(taken, told));
    }
}

/// Bytes behind F0H: this header, then data.
fn content(header: &[u8], length: usize) -> Vec<u8> {
    let data = iter::repeat((0..=0x7F).rev()).flatten();
    header.iter().copied().chain(data).take(length).collect()
}

#[test]
fn longer_messages_are_followed_to_their_end() {
    let headers: [(&[u8], u8); 7] = [
        (&[], 4),
        (&[0x10, 0x07], 5),
        (&[0x10, 0x06, 0x05], 6),
        (&[0x10, 0x06, 0x01], 7),
        (&[0x10, 0x06, 0x02], 7),
        (&[0x10, 0x06, 0x0C], 7),
        (&[0x10, 0x06, 0x03, 0x03], 7),
    ];
    for (header, answer) in headers {
        for length in (346..=354)
            .chain([700, 703])
            .filter(|&length| length != 349)
        {
            let content = content(header, length);
            for step in [1, 7, 350, 351, 352, 1_000] {
                let mut both = Both::new();
                assert_eq!(both.feed(&[0xF0]), took(1));
                for part in content.chunks(step) {
                    assert_eq!(both.feed(part), took(part.len()));
                }
                let held = both.reader.open().unwrap().content;
                assert_eq!(held, &content[..length.min(351)]);
                let told = report(0, length + 2, answer, 0);
                assert_eq!(both.feed(&[0xF7]), refused(1, told));
            }
        }
    }
}

#[test]
fn a_noisy_master_is_longer_than_the_room() {
    // Real time doesn't count toward the room.
    for every in [1, 5, 344] {
        let message = master(0xC3);
        let mut stream = Vec::new();
        for part in message[..350].chunks(every) {
            stream.extend_from_slice(part);
            stream.extend([0xF8, 0xFF]);
        }
        stream.push(0xF7);
        assert!(stream.len() > 351);
        let noise = stream.len() - 351;
        let told = noisy(noise, report(0, stream.len(), 0, 3));
        for at in 0..stream.len() {
            let mut both = Both::new();
            assert_eq!(both.feed(&stream[..at]), took(at));
            let fed = both.feed(&stream[at..]);
            assert_eq!(fed, accepted(stream.len() - at, told, [0; 4]));
            assert_eq!(both.reader.packed(), [0xC3; 172]);
        }
    }
}

#[test]
fn the_end() {
    // With none open: 1, as with a fresh start.
    for stream in [&[][..], &[0x00], &[0xF7], &[0xFE], &[0xF0, 0xF7]] {
        let mut both = Both::new();
        let _ = both.feed(stream);
        assert_eq!(both.end(), without_message(1, stream.len()));
        closed(both, stream.len());
    }
    // With one open: 2, whatever stands in it.
    for stream in [&[0xF0][..], &[0x00, 0xF0, 0x10], &[0xF7, 0xF0, 0xFE, 0x10]] {
        let start = stream.iter().position(|&byte| byte == 0xF0).unwrap();
        let noise = usize::from(stream.contains(&0xFE));
        let mut both = Both::new();
        assert_eq!(both.feed(stream), took(stream.len()));
        let told = noisy(noise, report(start, stream.len(), 2, 0));
        assert_eq!(both.end(), refused(0, told));
        closed(both, stream.len());
    }
    // The byte that interrupted was never taken.
    let mut both = Both::new();
    assert_eq!(both.feed(&[0xF0, 0x10]), took(2));
    assert_eq!(both.feed(&[0xF0]), refused(0, report(0, 2, 3, 0)));
    assert_eq!(both.end(), without_message(1, 2));
}

/// After the end nothing changes and every call gives 1.
fn closed(mut both: Both, taken: usize) {
    for bytes in [&[][..], &[0x00], &[0xF0], &[0xF7], &edit_message([0, 0])] {
        assert_eq!(both.feed(bytes), without_message(1, taken));
        assert_eq!(both.end(), without_message(1, taken));
        assert!(both.reader.is_over());
        assert_eq!(both.reader.taken(), taken);
    }
}

#[test]
fn exactly_around_the_limit() {
    assert_eq!(LONGEST_STREAM, LIMIT);
    for left in [0, 1, 2, 7, 300] {
        for length in [0, 1, 2, 3, 6, 7, 8, 299, 300, 301, 5_000] {
            for byte in [0x00, 0xFE, 0xF0] {
                let bytes = vec![byte; length];
                let mut both = Both::with_taken(LIMIT - left);
                let fed = both.feed(&bytes);
                if length > left {
                    assert_eq!(fed, without_message(21, 0));
                    assert_eq!(both.reader.taken(), LIMIT - left);
                } else {
                    assert_ne!(fed.report.answer, 21);
                }
            }
        }
    }
}

#[test]
fn the_length_fed_counts_and_not_what_would_be_taken() {
    let edit = edit_message([0x15, 0x7F]);
    let start = LIMIT - 7;
    let mut both = Both::with_taken(start);
    let longer = [&edit[..], &[0x00]].concat();
    assert_eq!(both.feed(&longer), without_message(21, 0));
    let told = report(start, LIMIT, 0, 6);
    assert_eq!(both.feed(&edit), accepted(7, told, [0x15, 0x7F, 0, 0]));
    assert_eq!(both.feed(&[0x00]), without_message(21, 0));
    assert_eq!(both.feed(&[]), took(0));
    assert_eq!(both.end(), without_message(1, LIMIT));
    // After the end 1 comes before 21.
    assert_eq!(both.feed(&longer), without_message(1, LIMIT));
}

#[test]
fn a_message_open_at_the_limit() {
    let mut both = Both::with_taken(LIMIT - 2);
    assert_eq!(both.feed(&[0xF0, 0x10]), took(2));
    // It would end without a byte being taken, but the feed is too long.
    assert_eq!(both.feed(&[0xF0]), without_message(21, 0));
    assert_eq!(both.feed(&[0xF7]), without_message(21, 0));
    assert_eq!(both.reader.open().unwrap().content, [0x10]);
    let told = report(LIMIT - 2, LIMIT, 2, 0);
    assert_eq!(both.end(), refused(0, told));
}

#[test]
fn no_reader_is_past_the_limit_but_one_made_so() {
    for taken in [LIMIT + 1, usize::MAX] {
        let mut reader = CableReader::with_taken(taken);
        for bytes in [&[][..], &[0xF0, 0xF7]] {
            assert_eq!(reader.feed(bytes), without_message(21, 0));
            assert_eq!(reader.taken(), taken);
        }
    }
}

#[test]
fn a_million_starts() {
    const LENGTH: usize = 1_000_000;
    let stream = vec![0xF0; LENGTH];
    for piece in [1, 4_096] {
        let mut reader = CableReader::new();
        let (mut place, mut given) = (0, 0);
        while place < LENGTH {
            let feed = &stream[place..LENGTH.min(place + piece)];
            let fed = reader.feed(feed);
            if fed.ended {
                assert_eq!(fed, refused(fed.taken, report(given, given + 1, 3, 0)));
                given += 1;
            }
            place += fed.taken;
        }
        assert_eq!(given, LENGTH - 1);
        let told = report(LENGTH - 1, LENGTH, 2, 0);
        assert_eq!(reader.end(), refused(0, told));
    }
}

#[test]
fn a_million_bytes_behind_one_start() {
    const LENGTH: usize = 1_000_000;
    for (byte, answer, noise) in [(0x10, 5, 0), (0x41, 4, 0), (0xFE, 4, LENGTH)] {
        let data = vec![byte; LENGTH];
        for piece in [1, 4_096, LENGTH] {
            let mut reader = CableReader::new();
            assert_eq!(reader.feed(&[0xF0]), took(1));
            for part in data.chunks(piece) {
                assert_eq!(reader.feed(part), took(part.len()));
            }
            let mut cut = reader.clone();
            let told = noisy(noise, report(0, LENGTH + 1, 2, 0));
            assert_eq!(cut.end(), refused(0, told));
            let told = noisy(noise, report(0, LENGTH + 2, answer, 0));
            assert_eq!(reader.feed(&[0xF7]), refused(1, told));
        }
    }
}

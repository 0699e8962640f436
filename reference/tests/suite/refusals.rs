//! The order of refusals, and that a refused call changes no lent byte.

use reference::{
    apply_bus_edit, apply_edit, read, set_name, show_name, test_patch, walk, write_bank,
    write_bus_edit, write_edit, write_edit_buffer, write_master, write_patch, BankOutcome, Outcome,
};

use crate::kit::{dump, found, noisy, outcome, reading_outcome, refuses, report, reported, P};

/// P with a field out of range at 100 and 9, each 64, and buses 7 and 3 half used.
fn twice_bad() -> [u8; 134] {
    let mut patch = half_used();
    patch[100] = 0x40;
    patch[9] = 0x40;
    patch
}

/// P with buses 7 and 3 half used.
fn half_used() -> [u8; 134] {
    let mut patch = P;
    patch[104 + 3 * 7] = 1;
    patch[106 + 3 * 3] = 1;
    patch
}

#[test]
fn a_patch() {
    for length in [0, 1, 133, 135, 268] {
        assert_eq!(test_patch(&vec![0xFF; length]), outcome(7, 0));
    }
    assert_eq!(test_patch(&twice_bad()), found(9, 64));
    assert_eq!(test_patch(&half_used()), outcome(12, 3));
    assert_eq!(test_patch(&P), outcome(0, 0));
}

#[test]
fn a_message_with_every_fault_mended_in_turn() {
    let mut message = dump(0x01, 100, &twice_bad());
    message[1] = 0x41;
    message[2] = 0x02;
    message[3] = 0x05;
    message[273] ^= 1;
    message[200] |= 0x40;
    message[150] |= 0x10;
    message.insert(100, 0x00);

    let mut buffer = [0xA5; 133];
    let mut expect = |message: &[u8], refusal: Outcome| {
        let end = match refusal.answer {
            2 | 3 => 275,
            _ => message.len(),
        };
        assert_eq!(walk(message, 0), reported(0, end, refusal));
        let reading = read(message, 0, &mut buffer);
        assert_eq!(reading_outcome(&reading), refusal);
        assert_eq!(reading.bytes, [0; 4]);
        assert_eq!(buffer, [0xA5; 133]);
    };
    expect(&message[..275], outcome(2, 0));
    let end = message.pop().unwrap();
    message.push(0x90);
    expect(&message, outcome(3, 0));
    message.pop();
    message.push(end);
    expect(&message, outcome(4, 0));
    message[1] = 0x10;
    expect(&message, outcome(5, 0));
    message[2] = 0x06;
    expect(&message, outcome(6, 0));
    message[3] = 0x01;
    expect(&message, outcome(7, 0));
    message.remove(100);
    expect(&message, outcome(8, 0));
    message[4] = 99;
    expect(&message, outcome(9, 145));
    message[150] &= 0x0F;
    expect(&message, outcome(9, 195));
    message[200] &= 0x0F;
    expect(&message, outcome(10, 0));
    message[273] ^= 1;
    expect(&message, found(9, 64));
    expect(&dump(0x01, 99, &half_used()), outcome(12, 3));

    // Only then is the buffer's length asked for.
    let good = dump(0x01, 99, &P);
    let reading = read(&good, 0, &mut buffer);
    assert_eq!(reading_outcome(&reading), outcome(13, 0));
    assert_eq!((reading.start, reading.end), (0, 275));
    assert_eq!(reading.bytes, [0; 4]);
    assert_eq!(buffer, [0xA5; 133]);
    assert_eq!(walk(&good, 0), report(0, 275, 0, 1));
}

#[test]
fn ends_of_short_messages() {
    for (message, answer) in [
        (&[0xF0, 0xF7][..], 4),
        (&[0xF0, 0x10, 0xF7], 5),
        (&[0xF0, 0x10, 0x06, 0xF7], 6),
        (&[0xF0, 0x10, 0x06, 0x05, 0xF7], 6),
        (&[0xF0, 0x10, 0x06, 0x0E, 0xF7], 7),
        (&[0xF0, 0x10, 0x06, 0x06, 0xF7], 7),
        (&[0xF0, 0x10, 0x06, 0x06, 0x15, 0xF7], 7),
        (&[0xF0, 0x10, 0x06, 0x06, 0x15, 0x7F, 0x00, 0xF7], 7),
    ] {
        assert_eq!(walk(message, 0), report(0, message.len(), answer, 0));
        // Real time before the F7H is no byte of the header.
        let [inside @ .., end] = message else {
            panic!("{message:?}");
        };
        let ticking = [inside, &[0xFE], &[*end]].concat();
        let expected = report(0, ticking.len(), answer, 0);
        assert_eq!(walk(&ticking, 0), noisy(1, expected));
    }
}

#[test]
fn versions_and_the_zero_of_0dh() {
    let mut master = vec![0; 351];
    master[..4].copy_from_slice(&[0xF0, 0x10, 0x06, 0x03]);
    master[350] = 0xF7;
    for version in 0..=127 {
        master[4] = version;
        let (answer, detail) = if version == 3 { (0, 3) } else { (8, 0) };
        assert_eq!(walk(&master, 0), report(0, 351, answer, detail));
    }
    let mut buffer = dump(0x0D, 0, &P);
    for zero in 0..=127 {
        buffer[4] = zero;
        let (answer, detail) = if zero == 0 { (0, 0x0D) } else { (8, 0) };
        assert_eq!(walk(&buffer, 0), report(0, 275, answer, detail));
    }
}

#[test]
fn writing_a_patch() {
    refuses(274, outcome(7, 0), |out| {
        write_patch(100, &[0xFF; 133], out)
    });
    refuses(274, outcome(8, 0), |out| {
        write_patch(100, &twice_bad(), out)
    });
    refuses(274, found(9, 64), |out| write_patch(99, &twice_bad(), out));
    refuses(274, outcome(12, 3), |out| {
        write_patch(99, &half_used(), out)
    });
    refuses(274, outcome(13, 0), |out| write_patch(99, &P, out));

    refuses(274, outcome(7, 0), |out| {
        write_edit_buffer(&[0xFF; 135], out)
    });
    refuses(274, found(9, 64), |out| {
        write_edit_buffer(&twice_bad(), out)
    });
    refuses(274, outcome(12, 3), |out| {
        write_edit_buffer(&half_used(), out)
    });
    refuses(274, outcome(13, 0), |out| write_edit_buffer(&P, out));
}

#[test]
fn writing_a_master() {
    refuses(350, outcome(7, 0), |out| write_master(&[0xFF; 171], out));
    refuses(400, outcome(7, 0), |out| write_master(&[0xFF; 173], out));
    refuses(350, outcome(13, 0), |out| write_master(&[0xFF; 172], out));
}

#[test]
fn writing_edits() {
    refuses(6, outcome(8, 0), |out| write_edit(39, 0x80, out));
    refuses(6, outcome(8, 0), |out| write_edit(0, 0x80, out));
    refuses(6, outcome(8, 0), |out| write_edit(21, 0xFF, out));
    refuses(6, outcome(8, 0), |out| write_edit(128, 0, out));
    refuses(6, found(9, 255), |out| write_edit(0, 0x7F, out));
    refuses(6, outcome(13, 0), |out| write_edit(0, 0x3F, out));

    refuses(8, outcome(8, 0), |out| {
        write_bus_edit(10, 21, 0x80, 33, out)
    });
    refuses(8, outcome(8, 0), |out| write_bus_edit(9, 21, 0x80, 33, out));
    refuses(8, found(131, 21), |out| {
        write_bus_edit(9, 21, 0x40, 33, out)
    });
    refuses(8, found(133, 33), |out| write_bus_edit(9, 0, 0x40, 33, out));
    refuses(8, outcome(12, 9), |out| write_bus_edit(9, 0, 0x40, 32, out));
    refuses(8, outcome(13, 0), |out| {
        write_bus_edit(9, 20, 0x40, 32, out)
    });
}

#[test]
fn sources_and_destinations_above_127() {
    refuses(9, found(104, 128), |out| {
        write_bus_edit(0, 0x80, 0, 0xFF, out)
    });
    refuses(9, found(106, 129), |out| write_bus_edit(0, 1, 0, 0x81, out));
    let mut patch = P;
    assert_eq!(apply_bus_edit(&mut patch, 0, 0xFF, 0, 1), found(104, 255));
    assert_eq!(apply_bus_edit(&mut patch, 0, 0, 0, 0xFF), found(106, 255));
    assert_eq!(patch, P);
}

#[test]
fn writing_a_bank() {
    let refused = |patches: &[u8], length: usize, refusal: Outcome, place| {
        let mut out = vec![0xA5; length];
        let expected = BankOutcome {
            answer: refusal.answer,
            detail: refusal.detail,
            value: refusal.value,
            place,
        };
        assert_eq!(write_bank(patches, &mut out), expected);
        assert!(out.iter().all(|&byte| byte == 0xA5));
    };
    let good = P.repeat(101);
    refused(&good[..133], 0, outcome(7, 0), 0);
    refused(&good[..135], 0, outcome(7, 0), 0);
    refused(&good, 101 * 275, outcome(7, 0), 0);
    refused(&[&good[..], &[0; 134]].concat(), 0, outcome(7, 0), 0);

    let bad = [&P[..], &P, &half_used(), &twice_bad()].concat();
    refused(&bad, 0, outcome(12, 3), 2);
    refused(&bad[134..], 0, outcome(12, 3), 1);
    refused(&bad[3 * 134..], 0, found(9, 64), 0);
    // A wrong length comes before a bad patch.
    refused(&bad[..bad.len() - 1], 0, outcome(7, 0), 0);
    refused(&good[..3 * 134], 3 * 275 - 1, outcome(13, 0), 0);
    refused(&good[..134], 0, outcome(13, 0), 0);

    let nothing = BankOutcome {
        answer: 0,
        detail: 0,
        value: 0,
        place: 0,
    };
    assert_eq!(write_bank(&[], &mut []), nothing);
}

#[test]
fn applying_edits() {
    let mut bad = twice_bad();
    let mut short = [0xFF; 133];
    // The edit's own refusals come before those of the patch.
    assert_eq!(apply_edit(&mut short, 39, 0x80), outcome(8, 0));
    assert_eq!(apply_edit(&mut bad, 0, 0x80), outcome(8, 0));
    assert_eq!(apply_edit(&mut bad, 12, 0x20), found(19, 32));
    assert_eq!(apply_edit(&mut short, 12, 0x1F), outcome(7, 0));
    assert_eq!(apply_edit(&mut bad, 12, 0x1F), found(9, 64));
    // Even where the edit would mend it.
    assert_eq!(apply_edit(&mut bad, 0, 0x00), found(9, 64));

    assert_eq!(apply_bus_edit(&mut short, 10, 0, 0, 0), outcome(8, 0));
    assert_eq!(apply_bus_edit(&mut short, 9, 0, 0x80, 0), outcome(8, 0));
    assert_eq!(apply_bus_edit(&mut bad, 9, 21, 0, 1), found(131, 21));
    assert_eq!(apply_bus_edit(&mut bad, 9, 1, 0, 0), outcome(12, 9));
    assert_eq!(apply_bus_edit(&mut short, 9, 1, 0, 1), outcome(7, 0));
    assert_eq!(apply_bus_edit(&mut bad, 9, 1, 0, 1), found(9, 64));
    assert_eq!(bad, twice_bad());
    assert_eq!(short, [0xFF; 133]);

    let mut half = half_used();
    assert_eq!(apply_edit(&mut half, 12, 0x1F), outcome(12, 3));
    assert_eq!(apply_bus_edit(&mut half, 3, 0, 0, 0), outcome(12, 3));
    assert_eq!(half, half_used());
}

#[test]
fn names() {
    let mut short = [0xFF; 133];
    let mut bad = twice_bad();
    let mut half = half_used();
    assert_eq!(set_name(&mut short, b"abc"), outcome(7, 0));
    assert_eq!(set_name(&mut bad, b"abc"), outcome(7, 0));
    assert_eq!(set_name(&mut bad, b"BASS 1   "), outcome(7, 0));
    assert_eq!(set_name(&mut bad, b"bass 1  "), outcome(8, 0));
    assert_eq!(set_name(&mut bad, b"BASS 1  "), found(9, 64));
    assert_eq!(set_name(&mut half, b"BASS 1 \x60"), outcome(8, 0));
    assert_eq!(set_name(&mut half, b"BASS 1  "), outcome(12, 3));
    // The old name is tested too.
    let mut misnamed = P;
    misnamed[7] = 64;
    assert_eq!(set_name(&mut misnamed, b"BASS 1  "), found(7, 64));
    assert_eq!(misnamed[7], 64);
    assert_eq!((short, bad, half), ([0xFF; 133], twice_bad(), half_used()));

    refuses(7, outcome(7, 0), |out| show_name(&[0xFF; 135], out));
    refuses(7, found(9, 64), |out| show_name(&twice_bad(), out));
    refuses(7, found(7, 64), |out| show_name(&misnamed, out));
    refuses(7, outcome(12, 3), |out| show_name(&half_used(), out));
    refuses(7, outcome(13, 0), |out| show_name(&P, out));
}

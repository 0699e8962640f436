//! Bus destinations: Table 3 ends with 32, Portamento Time, and 33 is refused everywhere.

use reference::streams::{inputs, Random};
use reference::{
    apply_bus_edit, apply_edit, reports, set_name, show_name, test_patch, walk, write_bank,
    write_bus_edit, write_edit_buffer, write_patch, BankOutcome, Outcome,
};

use crate::kit::{
    bus_message, dump, found, outcome, reading_outcome, record, report, reported, with_real_time,
    written, P,
};

/// The kinds of patch dump: opcode and the byte behind it.
const DUMPS: [(u8, u8); 2] = [(0x01, 7), (0x0D, 0)];

/// A patch with a bus set to these bytes.
fn with_bus(patch: [u8; 134], bus: u8, bytes: [u8; 3]) -> [u8; 134] {
    let mut patch = patch;
    patch[104 + 3 * usize::from(bus)..][..3].copy_from_slice(&bytes);
    patch
}

/// What the papers say of a bus whose source is in range.
fn expected(bus: u8, source: u8, destination: u8) -> Outcome {
    let bus = usize::from(bus);
    if destination > 32 {
        found(106 + 3 * bus, destination.into())
    } else if (source == 0) != (destination == 0) {
        outcome(12, bus)
    } else {
        outcome(0, 0)
    }
}

#[test]
fn each_destination_on_each_bus() {
    let (mut taken, mut refused) = (0, 0);
    for bus in 0..10 {
        for source in [0, 20] {
            for destination in 0..=255 {
                let tested = expected(bus, source, destination);
                let patch = with_bus(P, bus, [source, 0xC0, destination]);
                lent_patch(&patch, tested);
                for (opcode, second) in DUMPS {
                    dump_in_a_stream(opcode, second, &patch, tested);
                }
                edit([bus, source, 0x40, destination], &patch, tested);
                match tested.answer {
                    0 => taken += 1,
                    _ => refused += 1,
                }
            }
        }
    }
    assert_eq!((taken, refused), (330, 10 * 2 * 256 - 330));
}

/// Every routine that is lent a patch tests it alike, and changes nothing when it refuses.
fn lent_patch(patch: &[u8; 134], tested: Outcome) {
    assert_eq!(test_patch(patch), tested);
    writes(tested, 275, |out| write_patch(99, patch, out));
    writes(tested, 275, |out| write_edit_buffer(patch, out));
    writes(tested, 8, |out| show_name(patch, out));
    changes(patch, tested, |patch| apply_edit(patch, 21, 0x7F));
    changes(patch, tested, |patch| set_name(patch, b"GLIDE   "));
    // Even an edit that would mend the bus.
    for bus in 0..10 {
        changes(patch, tested, |patch| apply_bus_edit(patch, bus, 1, 1, 1));
    }

    let (detail, place, filled) = match tested.answer {
        0 => (550, 0, 550),
        _ => (tested.detail, 1, 0),
    };
    let bank = BankOutcome {
        answer: tested.answer,
        detail,
        value: tested.value,
        place,
    };
    let mut out = [0xA5; 600];
    assert_eq!(write_bank(&[P, *patch].concat(), &mut out), bank);
    assert!(out[filled..].iter().all(|&byte| byte == 0xA5));
}

/// A writer is done with this many bytes, or refuses and keeps its output.
fn writes(tested: Outcome, length: usize, write: impl FnOnce(&mut [u8]) -> Outcome) {
    let mut out = [0xA5; 300];
    let answer = write(&mut out);
    if tested.answer == 0 {
        assert_eq!(answer, outcome(0, length));
    } else {
        assert_eq!(answer, tested);
        assert_eq!(out, [0xA5; 300]);
    }
}

/// An edit of a lent patch is done, or refused and the patch as it was.
fn changes(patch: &[u8; 134], tested: Outcome, change: impl FnOnce(&mut [u8]) -> Outcome) {
    let mut changed = *patch;
    assert_eq!(change(&mut changed), tested);
    assert_eq!(changed == *patch, tested.answer != 0);
}

/// A dump of the patch, between other things, is filed or refused.
fn dump_in_a_stream(opcode: u8, second: u8, patch: &[u8; 134], tested: Outcome) {
    let dump = dump(opcode, second, patch);
    let behind = [0xF0, 0x10, 0x06, 0x06, 0x15, 0x7F, 0xF7];
    let stream = [&[0x41, 0xF0][..], &dump, &behind].concat();
    let (judged, bytes, filed) = match tested.answer {
        0 => (outcome(0, opcode.into()), [second, 0, 0, 0], &patch[..]),
        _ => (tested, [0; 4], &[][..]),
    };
    let found: Vec<_> = reports(&stream).collect();
    assert_eq!(
        found,
        [
            report(1, 2, 3, 0),
            reported(2, 277, judged),
            report(277, 284, 0, 6),
        ]
    );
    let (reading, packed) = record(&stream, 2);
    assert_eq!(reading_outcome(&reading), judged);
    assert_eq!(reading.bytes, bytes);
    assert_eq!(packed, filed);
}

/// An edit is read, written and applied, or refused by all three. Applied to P it makes the patch.
fn edit(bytes: [u8; 4], patch: &[u8; 134], tested: Outcome) {
    let [bus, source, amount, destination] = bytes;
    let message = bus_message(bytes);
    // A byte above 127 doesn't stand in a message.
    if destination <= 127 {
        let judged = match tested.answer {
            0 => outcome(0, 0x0B),
            _ => tested,
        };
        assert_eq!(walk(&message, 0), reported(0, 9, judged));
    }
    let mut out = [0xA5; 9];
    let wrote = write_bus_edit(bus, source, amount, destination, &mut out);
    let mut applied = P;
    assert_eq!(
        apply_bus_edit(&mut applied, bus, source, amount, destination),
        tested
    );
    if tested.answer == 0 {
        assert_eq!(wrote, outcome(0, 9));
        assert_eq!(out[..], message);
        assert_eq!(applied, *patch);
    } else {
        assert_eq!(wrote, tested);
        assert_eq!(out, [0xA5; 9]);
        assert_eq!(applied, P);
    }
}

/// A patch written and read back.
fn filed(patch: &[u8; 134]) -> Vec<u8> {
    record(&written(|out| write_patch(99, patch, out)), 0).1
}

#[test]
fn a_dump_that_routes_a_lever_to_portamento_time() {
    let mut random = Random::new(50);
    for bus in (0..10).cycle().take(500) {
        let lever = [random.byte_within(18..=20), 0x14, 32];
        let patch = with_bus(inputs::good_patch(&mut random), bus, lever);
        for (opcode, second) in DUMPS {
            let dump = dump(opcode, second, &patch);
            for received in [dump.clone(), with_real_time(&dump)] {
                let (reading, packed) = record(&received, 0);
                assert_eq!(reading_outcome(&reading), outcome(0, opcode.into()));
                assert_eq!(packed, patch);
                let again = written(|out| match opcode {
                    0x01 => write_patch(reading.bytes[0], &packed, out),
                    _ => write_edit_buffer(&packed, out),
                });
                assert_eq!(again, dump);
            }
        }
    }
}

#[test]
fn an_edit_that_routes_a_lever_to_portamento_time() {
    let mut random = Random::new(51);
    for bus in (0..10).cycle().take(500) {
        let before = inputs::good_patch(&mut random);
        let mut after = before;
        assert_eq!(apply_bus_edit(&mut after, bus, 18, 0x7F, 32), outcome(0, 0));
        assert_eq!(after, with_bus(before, bus, [18, 0xFF, 32]));
        assert_eq!(filed(&after), after);
        // And away from it again.
        assert_eq!(apply_bus_edit(&mut after, bus, 0, 0, 0), outcome(0, 0));
        assert_eq!(after, with_bus(before, bus, [0, 0, 0]));
    }
}

#[test]
fn an_edit_elsewhere_leaves_it() {
    let mut random = Random::new(52);
    for bus in (0..10).cycle().take(500) {
        let before = with_bus(inputs::good_patch(&mut random), bus, [18, 0x14, 32]);

        let [parameter, value] = inputs::good_edit(&mut random);
        let mut after = before;
        assert_eq!(apply_edit(&mut after, parameter, value), outcome(0, 0));
        assert_eq!(after[104..], before[104..]);
        assert_eq!(filed(&after), after);

        let other = (bus + random.byte_within(1..=9)) % 10;
        let mut after = before;
        assert_eq!(apply_bus_edit(&mut after, other, 1, 1, 1), outcome(0, 0));
        assert_eq!(after, with_bus(before, other, [1, 1, 1]));
        assert_eq!(filed(&after), after);

        let mut after = before;
        assert_eq!(set_name(&mut after, b"GLIDE   "), outcome(0, 0));
        assert_eq!(after[8..], before[8..]);
        assert_eq!(filed(&after), after);
    }
}

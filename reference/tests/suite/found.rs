//! What was found: 11 comes with the place and the value stored there, or the one an edit would
//! store, and every other answer with 0.

use std::collections::BTreeSet;

use reference::streams::{inputs, stream, Random, CYCLE};
use reference::{
    apply_bus_edit, apply_edit, listing, outside, read, reports, set_name, show_name, test_patch,
    value_of, walk, write_bank, write_bus_edit, write_edit, write_edit_buffer, write_master,
    write_patch, BankOutcome, Outcome, Reading, ValueOutcome,
};

use crate::kit::{
    bus_message, dump, edit_message, found, noisy, outcome, p_with, reading_outcome, refuses,
    report, report_outcome, reported, with_real_time, P,
};
use crate::model;

/// The kinds of patch dump: opcode and the byte behind it.
const DUMPS: [(u8, u8); 2] = [(0x01, 7), (0x0D, 0)];

/// A byte out of range at a place, and the answer it gets.
struct Outside {
    place: usize,
    byte: u8,
    refusal: Outcome,
}

impl Outside {
    /// P with the byte.
    fn patch(&self) -> [u8; 134] {
        p_with(self.place, &[self.byte])
    }
}

/// Every byte out of range at every place.
fn every_outside() -> Vec<Outside> {
    let fields = model::fields();
    let all = (0..134).flat_map(|place| (0..=255).map(move |byte| (place, byte)));
    all.filter(|&(place, byte)| !model::allows(&fields, place, byte))
        .map(|(place, byte)| Outside {
            place,
            byte,
            refusal: found(place, model::value(place, byte)),
        })
        .collect()
}

#[test]
fn bytes_below_and_above_at_every_place() {
    let all = every_outside();
    for (place, (_, least, greatest)) in model::fields().into_iter().enumerate() {
        let values: Vec<i16> = all
            .iter()
            .filter(|outside| outside.place == place)
            .map(|outside| outside.refusal.value)
            .collect();
        let below = values.iter().filter(|&&value| value < least).count();
        let above = values.iter().filter(|&&value| value > greatest).count();
        let expected = match place {
            19 => (96, 96),
            76 => (1, 235),
            _ if model::has_sign(place) => (64, 64),
            _ => (0, 255 - greatest as usize),
        };
        assert_eq!((below, above), expected, "{place}");
        assert_eq!(values.len(), below + above);
    }
}

#[test]
fn the_bytes_outside_are_those_of_the_papers() {
    let all = every_outside();
    for place in 0..=255 {
        let at = |outside: &&Outside| outside.place == usize::from(place);
        let expected: Vec<u8> = all.iter().filter(at).map(|outside| outside.byte).collect();
        assert_eq!(outside(place), expected, "{place}");
        assert_eq!(expected.is_empty(), place > 133);
    }
}

/// Writing, applying and reading a remote edit give this refusal.
fn remote_edit(parameter: u8, value: u8, refusal: Outcome) {
    refuses(7, refusal, |out| write_edit(parameter, value, out));
    unchanged(&P, refusal, |patch| apply_edit(patch, parameter, value));
    // A byte above 127 doesn't stand in a message.
    if parameter <= 127 && value <= 127 {
        reads(&edit_message([parameter, value]), refusal);
    }
}

/// The same of a matrix modulation edit.
fn bus_edit(bytes: [u8; 4], refusal: Outcome) {
    let [bus, source, amount, destination] = bytes;
    refuses(9, refusal, |out| {
        write_bus_edit(bus, source, amount, destination, out)
    });
    unchanged(&P, refusal, |patch| {
        apply_bus_edit(patch, bus, source, amount, destination)
    });
    if bytes.is_ascii() {
        reads(&bus_message(bytes), refusal);
    }
}

/// A message gets this refusal from the walk, from reading with any buffer, and in a stream.
pub fn reads(message: &[u8], refusal: Outcome) {
    let (end, noise) = (message.len(), model::noise(message));
    assert_eq!(walk(message, 0), noisy(noise, reported(0, end, refusal)));
    for length in [0, 18, 134, 172] {
        let mut buffer = [0xA5; 172];
        let expected = Reading {
            start: 0,
            end,
            answer: refusal.answer,
            detail: refusal.detail,
            value: refusal.value,
            noise,
            bytes: [0; 4],
        };
        assert_eq!(read(message, 0, &mut buffer[..length]), expected);
        assert_eq!(buffer, [0xA5; 172]);
    }
    reads_between_others(message, refusal);
}

/// It is in the reports and in the listing, between those of other messages.
fn reads_between_others(message: &[u8], refusal: Outcome) {
    let before = edit_message([0x15, 0x7F]);
    let stream = [&before, message, &[0xF0]].concat();
    let (end, noise) = (7 + message.len(), model::noise(message));
    let expected = [
        report(0, 7, 0, 6),
        noisy(noise, reported(7, end, refusal)),
        report(end, end + 1, 2, 0),
    ];
    assert!(reports(&stream).eq(expected));

    let Outcome {
        answer,
        detail,
        value,
    } = refusal;
    let text = format!(
        "start end answer detail value rt\n0 7 0 6 0 0\n\
         7 {end} {answer} {detail} {value} {noise}\n{end} {} 2 0 0 0\nmessages 3\n",
        end + 1
    );
    assert_eq!(String::from_utf8(listing(&stream)).unwrap(), text);
}

/// A call refuses and leaves the patch as it was.
fn unchanged(patch: &[u8], refusal: Outcome, change: impl FnOnce(&mut [u8]) -> Outcome) {
    let mut changed = patch.to_vec();
    assert_eq!(change(&mut changed), refusal);
    assert_eq!(changed, patch);
}

#[test]
fn the_examples_of_document_01() {
    let zeros = [0; 134];
    assert_eq!(test_patch(&zeros), found(76, 0));
    reads(&dump(0x01, 0, &zeros), found(76, 0));

    remote_edit(0x0C, 0x5F, found(19, -33));
    remote_edit(0x0C, 0x20, found(19, 32));
    remote_edit(0x00, 0x40, found(9, 192));
    for (byte, tested) in [
        (0xE0, outcome(0, 0)),
        (0xDF, found(19, -33)),
        (0x1F, outcome(0, 0)),
        (0x20, found(19, 32)),
    ] {
        assert_eq!(test_patch(&p_with(19, &[byte])), tested);
    }

    bus_edit([9, 20, 0x40, 33], found(133, 33));
    bus_edit([0, 1, 0, 0], outcome(12, 0));
    remote_edit(39, 0x40, outcome(8, 0));
    for bus in 0..10 {
        let place = 104 + 3 * usize::from(bus);
        bus_edit([bus, 21, 0x40, 1], found(place, 21));
        bus_edit([bus, 0xFF, 0x40, 1], found(place, 255));
        bus_edit([bus, 1, 0x40, 33], found(place + 2, 33));
        reads(
            &dump(0x01, 0, &p_with(place, &[0xFF, 0, 1])),
            found(place, 255),
        );
    }
}

#[test]
fn in_a_dump() {
    for outside in every_outside() {
        for (opcode, second) in DUMPS {
            let dump = dump(opcode, second, &outside.patch());
            reads(&dump, outside.refusal);
            reads(&with_real_time(&dump), outside.refusal);
        }
    }
}

#[test]
fn in_a_lent_patch() {
    for outside in every_outside() {
        let (patch, refusal) = (outside.patch(), outside.refusal);
        assert_eq!(test_patch(&patch), refusal);
        // Before an output that is too short.
        for length in [0, 275] {
            refuses(length, refusal, |out| write_patch(99, &patch, out));
            refuses(length, refusal, |out| write_edit_buffer(&patch, out));
            refuses(length, refusal, |out| show_name(&patch, out));
        }
        unchanged(&patch, refusal, |patch| set_name(patch, b"BASS 1  "));
        unchanged(&patch, refusal, |patch| apply_edit(patch, 21, 0x7F));
        for bus in 0..10 {
            unchanged(&patch, refusal, |patch| {
                apply_bus_edit(patch, bus, 1, 0x40, 1)
            });
        }
        let told = ValueOutcome {
            answer: refusal.answer,
            detail: refusal.detail,
            value: refusal.value,
            held: 0,
        };
        assert_eq!(value_of(&patch, 21), told);
    }
}

#[test]
fn the_lowest_place_is_the_one_found() {
    let mut random = Random::new(70);
    let fields = model::fields();
    for _ in 0..20_000 {
        let patch = inputs::out_of_range_patch(&mut random);
        let place = (0..134)
            .find(|&place| !model::allows(&fields, place, patch[place]))
            .unwrap();
        let refusal = found(place, model::value(place, patch[place]));
        assert_eq!(test_patch(&patch), refusal);
        let report = walk(&dump(0x0D, 0, &patch), 0);
        assert_eq!(report_outcome(&report), refusal);
    }
}

#[test]
fn an_edit_s_own_value_comes_before_its_patch_s() {
    for outside in every_outside() {
        let patch = outside.patch();
        unchanged(&patch, found(9, 255), |patch| apply_edit(patch, 0, 0x7F));
        unchanged(&patch, found(19, -64), |patch| apply_edit(patch, 12, 0x40));
        unchanged(&patch, found(131, 128), |patch| {
            apply_bus_edit(patch, 9, 0x80, 0, 1)
        });
    }
}

#[test]
fn by_a_remote_edit() {
    let fields = model::fields();
    let mut met = BTreeSet::new();
    for (parameter, value) in (0..=255).flat_map(|one| (0..=255).map(move |other| (one, other))) {
        let place = fields.iter().position(|field| field.0 == Some(parameter));
        let Some(place) = place.filter(|_| value <= 127) else {
            remote_edit(parameter, value, outcome(8, 0));
            continue;
        };
        let stored = model::stored(parameter, value);
        let shown = model::value(place, stored);
        if model::allows(&fields, place, stored) {
            let mut patch = P;
            assert_eq!(apply_edit(&mut patch, parameter, value), outcome(0, 0));
            assert_eq!(value_of(&patch, parameter).held, shown);
            continue;
        }
        remote_edit(parameter, value, found(place, shown));
        met.insert((place, shown < fields[place].1));
        // Bit 6 is copied, so that the value is below 64 or from 192 on.
        let range = if place == 19 { -64..=63 } else { 0..=255 };
        assert!(range.contains(&shown) && !(64..192).contains(&shown));
    }
    // All seven bits are in range at byte 26 and the amounts. Only detune and byte 76 have some
    // below.
    let above = (8..86).filter(|&place| place != 26);
    let expected = above
        .map(|place| (place, false))
        .chain([19, 76].map(|place| (place, true)));
    assert_eq!(met, expected.collect());
}

#[test]
fn by_a_matrix_modulation_edit() {
    let codes = (0..=255).flat_map(|one| (0..=255).map(move |other| (one, other)));
    for (source, destination) in codes.filter(|&(one, other)| one > 20 || other > 32) {
        for bus in 0..10 {
            let place = 104 + 3 * usize::from(bus);
            let refusal = if source > 20 {
                found(place, source.into())
            } else {
                found(place + 2, destination.into())
            };
            let amount = (source ^ destination) & 0x7F;
            bus_edit([bus, source, amount, destination], refusal);
        }
    }
}

#[test]
fn in_a_bank() {
    let refused = |patches: &[[u8; 134]], place, refusal: Outcome| {
        let expected = BankOutcome {
            answer: refusal.answer,
            detail: refusal.detail,
            value: refusal.value,
            place,
        };
        for length in [0, 275 * patches.len()] {
            let mut out = vec![0xA5; length];
            assert_eq!(write_bank(patches.as_flattened(), &mut out), expected);
            assert!(out.iter().all(|&byte| byte == 0xA5));
        }
    };
    let mut hundred = [P; 100];
    for outside in every_outside() {
        let (patch, refusal) = (outside.patch(), outside.refusal);
        refused(&[patch], 0, refusal);
        refused(&[P, patch, P], 1, refusal);
        // The lowest bad patch is the one found, whatever is behind it.
        refused(&[P, P, patch, [0xFF; 134]], 2, refusal);
        let number = 1 + usize::from(outside.byte) % 99;
        hundred[number] = patch;
        refused(&hundred, number, refusal);
        hundred[number] = P;
    }
}

/// A value is 0 with every answer but 11.
fn only_with_11(answer: u8, value: i16, met: &mut BTreeSet<u8>) {
    assert!(answer == 11 || value == 0, "{answer} {value}");
    met.insert(answer);
}

#[test]
fn zero_with_every_other_answer_to_streams() {
    let mut random = Random::new(71);
    let mut met = BTreeSet::new();
    for seed in 0..20 * CYCLE {
        let input = stream(seed);
        for report in reports(&input).take(2_000) {
            only_with_11(report.answer, report.value, &mut met);
            let mut buffer = inputs::output(&mut random, 172);
            let reading = read(&input, report.start, &mut buffer);
            only_with_11(reading.answer, reading.value, &mut met);
            // 13 takes the place of 0, and no other.
            if reading.answer != 13 {
                assert_eq!(reading_outcome(&reading), report_outcome(&report));
            }
        }
        let nothing = walk(&input, input.len());
        only_with_11(nothing.answer, nothing.value, &mut met);
        assert_eq!(read(&input, input.len(), &mut []).value, 0);
    }
    assert_eq!(met, (0..=13).collect());
}

#[test]
fn zero_with_every_other_answer_of_a_routine() {
    let mut random = Random::new(72);
    let mut met = BTreeSet::new();
    for _ in 0..20_000 {
        let random = &mut random;
        let patch = inputs::patch(random);
        let mut lent = patch.clone();
        let [parameter, value] = inputs::edit(random);
        let [bus, source, amount, destination] = inputs::bus_edit(random);
        let mut out = inputs::output(random, 275);
        let out = &mut out[..];
        let outcomes = [
            test_patch(&patch),
            write_patch(inputs::number(random), &patch, out),
            write_edit_buffer(&patch, out),
            write_master(&inputs::master(random), out),
            write_edit(parameter, value, out),
            write_bus_edit(bus, source, amount, destination, out),
            show_name(&patch, out),
            set_name(&mut lent, &inputs::name(random)),
            apply_edit(&mut lent, parameter, value),
            apply_bus_edit(&mut lent, bus, source, amount, destination),
        ];
        for outcome in outcomes {
            only_with_11(outcome.answer, outcome.value, &mut met);
        }
        let bank = write_bank(&inputs::bank(random), out);
        only_with_11(bank.answer, bank.value, &mut met);
        let told = value_of(&patch, inputs::parameter(random));
        only_with_11(told.answer, told.value, &mut met);
    }
    assert_eq!(met, [0, 7, 8, 11, 12, 13].into());
}

#[test]
fn the_listing_prints_what_the_reports_hold() {
    for seed in 0..4 * CYCLE {
        let input = stream(seed);
        if input.len() > 65_536 {
            continue;
        }
        let mut text = String::from("start end answer detail value rt\n");
        let found: Vec<_> = reports(&input).collect();
        for report in &found {
            let (start, end) = (report.start, report.end);
            let (answer, detail, value) = (report.answer, report.detail, report.value);
            let noise = report.noise;
            text += &format!("{start} {end} {answer} {detail} {value} {noise}\n");
        }
        text += &format!("messages {}\n", found.len());
        assert_eq!(String::from_utf8(listing(&input)).unwrap(), text);
    }
}

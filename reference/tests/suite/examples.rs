//! All examples of document 01, starred or not, as document 02 amends them.

use reference::{
    apply_bus_edit, apply_edit, extend, listing, place_of, read, set_name, show_name, test_patch,
    walk, write_bus_edit, write_edit, write_patch, Outcome,
};

use crate::kit::{
    bus_message, edit_message, found, outcome, p_with, reading_outcome, report, reported, written,
    P,
};

/// Reading, writing and applying a remote edit give the same refusal.
fn refused_edit(parameter: u8, value: u8, refusal: Outcome) {
    let message = edit_message([parameter, value]);
    assert_eq!(walk(&message, 0), reported(0, 7, refusal));
    let mut out = [0xA5; 7];
    assert_eq!(write_edit(parameter, value, &mut out), refusal);
    assert_eq!(out, [0xA5; 7]);
    let mut patch = P;
    assert_eq!(apply_edit(&mut patch, parameter, value), refusal);
    assert_eq!(patch, P);
}

/// Reading, writing and applying a remote edit are done, and one byte of P becomes this.
fn done_edit(parameter: u8, value: u8, place: usize, byte: u8) {
    let message = edit_message([parameter, value]);
    let reading = read(&message, 0, &mut []);
    assert_eq!(reading_outcome(&reading), outcome(0, 6));
    assert_eq!(reading.bytes, [parameter, value, 0, 0]);
    assert_eq!(written(|out| write_edit(parameter, value, out)), message);
    let mut patch = P;
    assert_eq!(apply_edit(&mut patch, parameter, value), outcome(0, 0));
    assert_eq!(patch, p_with(place, &[byte]));
}

/// Reading, writing and applying a matrix modulation edit give the same refusal.
fn refused_bus_edit(bytes: [u8; 4], refusal: Outcome) {
    let [bus, source, amount, destination] = bytes;
    assert_eq!(walk(&bus_message(bytes), 0), reported(0, 9, refusal));
    let mut out = [0xA5; 9];
    assert_eq!(
        write_bus_edit(bus, source, amount, destination, &mut out),
        refusal
    );
    assert_eq!(out, [0xA5; 9]);
    let mut patch = P;
    assert_eq!(
        apply_bus_edit(&mut patch, bus, source, amount, destination),
        refusal
    );
    assert_eq!(patch, P);
}

/// Reading, writing and applying a matrix modulation edit are done, and a bus of P becomes this.
fn done_bus_edit(bytes: [u8; 4], place: usize, stored: [u8; 3]) {
    let [bus, source, amount, destination] = bytes;
    let message = bus_message(bytes);
    assert_eq!(
        written(|out| write_bus_edit(bus, source, amount, destination, out)),
        message
    );
    let reading = read(&message, 0, &mut []);
    assert_eq!(reading_outcome(&reading), outcome(0, 0x0B));
    assert_eq!(reading.bytes, bytes);
    let mut patch = P;
    assert_eq!(
        apply_bus_edit(&mut patch, bus, source, amount, destination),
        outcome(0, 0)
    );
    assert_eq!(patch, p_with(place, &stored));
}

#[test]
fn p_as_number_0() {
    let dump = written(|out| write_patch(0, &P, out));
    let mut expected = [0; 275];
    expected[..4].copy_from_slice(&[0xF0, 0x10, 0x06, 0x01]);
    expected[157] = 0x01;
    expected[273] = 0x01;
    expected[274] = 0xF7;
    assert_eq!(dump, expected);
}

#[test]
fn p_named_bass_1() {
    let mut patch = P;
    assert_eq!(set_name(&mut patch, b"BASS 1  "), outcome(0, 0));
    assert_eq!(patch[..8], [2, 1, 19, 19, 32, 49, 32, 32]);
    assert_eq!(patch[8..], P[8..]);
    assert_eq!(written(|out| write_patch(0, &patch, out))[273], 0x3B);
    assert_eq!(written(|out| show_name(&patch, out)), b"BASS 1  ");
}

#[test]
fn p_with_bus_0() {
    let mut patch = P;
    assert_eq!(apply_bus_edit(&mut patch, 0, 1, 0x7F, 1), outcome(0, 0));
    assert_eq!(patch[104..107], [1, 0xFF, 1]);
    assert_eq!(written(|out| write_patch(0, &patch, out))[273], 0x02);
}

#[test]
fn extension() {
    assert_eq!(extend(0x3F).cast_signed(), 63);
    assert_eq!(extend(0x40).cast_signed(), -64);
    assert_eq!(extend(0x7F).cast_signed(), -1);
}

#[test]
fn vcf_frequency_is_not_extended() {
    assert_eq!(place_of(0x15), Some(26));
    done_edit(0x15, 0x7F, 26, 127);
}

#[test]
fn detune() {
    done_edit(0x0C, 0x60, 19, 0xE0);
    refused_edit(0x0C, 0x5F, found(19, -33));
    done_edit(0x0C, 0x1F, 19, 31);
    refused_edit(0x0C, 0x20, found(19, 32));
}

#[test]
fn dco_1_frequency_and_parameter_39() {
    refused_edit(0x00, 0x40, found(9, 192));
    for value in [0x00, 0x40, 0x7F] {
        refused_edit(39, value, outcome(8, 0));
    }
}

#[test]
fn bus_9() {
    done_bus_edit([9, 20, 0x40, 31], 131, [0x14, 0xC0, 0x1F]);
    done_bus_edit([9, 20, 0x40, 32], 131, [0x14, 0xC0, 0x20]);
    refused_bus_edit([9, 20, 0x40, 33], found(133, 33));
    for (destination, tested) in [
        (31, outcome(0, 0)),
        (32, outcome(0, 0)),
        (33, found(133, 33)),
    ] {
        let patch = p_with(131, &[0x14, 0xC0, destination]);
        assert_eq!(test_patch(&patch), tested);
    }
}

#[test]
fn bus_0_half_used() {
    refused_bus_edit([0, 1, 0, 0], outcome(12, 0));
    refused_bus_edit([0, 1, 0x40, 0], outcome(12, 0));
}

#[test]
fn patch_numbers() {
    let mut dump = written(|out| write_patch(99, &P, out));
    let reading = read(&dump, 0, &mut [0; 134]);
    assert_eq!(reading_outcome(&reading), outcome(0, 1));
    assert_eq!(reading.bytes, [99, 0, 0, 0]);
    dump[4] = 100;
    assert_eq!(walk(&dump, 0), report(0, 275, 8, 0));
    assert_eq!(write_patch(100, &P, &mut [0; 275]), outcome(8, 0));
}

#[test]
fn all_zeros() {
    let zeros = [0; 134];
    assert_eq!(test_patch(&zeros), found(76, 0));
    assert_eq!(write_patch(0, &zeros, &mut [0; 275]), found(76, 0));
    let mut dump = [0; 275];
    dump[..4].copy_from_slice(&[0xF0, 0x10, 0x06, 0x01]);
    dump[274] = 0xF7;
    assert_eq!(walk(&dump, 0), reported(0, 275, found(76, 0)));
}

#[test]
fn outputs_of_274_and_275() {
    let mut out = [0xA5; 274];
    assert_eq!(write_patch(0, &P, &mut out), outcome(13, 0));
    assert_eq!(out, [0xA5; 274]);
    assert_eq!(write_patch(0, &P, &mut [0; 275]), outcome(0, 275));
}

#[test]
fn the_whole_listing() {
    let input = [
        0x41, 0xF0, 0xF7, 0xF0, 0x10, 0x06, 0x06, 0x15, 0x7F, 0xF7, 0xF0,
    ];
    let expected = "\
start end answer detail value rt
1 3 4 0 0 0
3 10 0 6 0 0
10 11 2 0 0 0
messages 3
";
    assert_eq!(String::from_utf8(listing(&input)).unwrap(), expected);
}

//! The stored streams, each with the listing expected for it.

use std::collections::BTreeSet;
use std::fs;
use std::path::{Path, PathBuf};

use reference::streams::damage::{low_nibble, Damage};
use reference::streams::inputs::with_active_sensing;
use reference::{
    apply_bus_edit, apply_edit, check_plan, from_stored, listing, nibbles, plan_files, reports,
    show_name, stored_file, test_patch, test_split, to_stored, Unit,
};

use crate::kit::{
    bass, come_with_it, found, less_real_time, outcome, placed, record, report_outcome, P, SPLIT,
};
use crate::model;
use crate::stored::{refuses_so, restored, stored};

/// The names of the dumps in most of them.
const BASS: &str = "BASS 1  ";
const STRINGS: &str = "STRINGS ";
const LEAD: &str = "LEAD [2]";

fn directory() -> PathBuf {
    Path::new(env!("CARGO_MANIFEST_DIR")).join("vectors")
}

fn vector(name: &str) -> Vec<u8> {
    fs::read(directory().join(name).with_extension("syx")).unwrap()
}

/// The new form of a stored file.
fn new_vector(name: &str) -> Vec<u8> {
    fs::read(directory().join(name).with_extension("new")).unwrap()
}

/// The files' names, without the ending, that have this ending.
fn names(ending: &str) -> Vec<String> {
    let mut names: Vec<String> = fs::read_dir(directory())
        .unwrap()
        .map(|entry| entry.unwrap().path())
        .filter(|path| path.extension().is_some_and(|found| found == ending))
        .map(|path| path.file_stem().unwrap().to_str().unwrap().to_owned())
        .collect();
    names.sort();
    names
}

#[test]
fn each_has_the_listing_expected_for_it() {
    let streams = names("syx");
    assert_eq!(streams, names("listing"));
    assert!(streams.len() >= 20);
    for name in streams {
        let expected = fs::read_to_string(directory().join(&name).with_extension("listing"));
        let found = String::from_utf8(listing(&vector(&name))).unwrap();
        assert_eq!(found, expected.unwrap(), "{name}");
    }
}

/// The name in the dump that starts at a place.
fn name_at(input: &[u8], place: usize) -> String {
    let (reading, packed) = record(input, place);
    assert_eq!(reading.answer, 0);
    let mut name = [0; 8];
    assert_eq!(show_name(&packed, &mut name), outcome(0, 8));
    String::from_utf8(name.to_vec()).unwrap()
}

#[test]
fn dumps_carry_their_names() {
    assert_eq!(name_at(&vector("single_patch"), 0), BASS);
    assert_eq!(name_at(&vector("edit_buffer"), 0), STRINGS);
    assert_eq!(bank_names(&vector("bank_of_three")), [BASS, STRINGS, LEAD]);
}

/// The names in a stream of accepted dumps.
fn bank_names(bank: &[u8]) -> Vec<String> {
    reports(bank)
        .map(|report| name_at(bank, report.start))
        .collect()
}

#[test]
fn neighbours_exchanged_once_more_are_the_dumps_as_written() {
    let mut stream = vector("neighbours_exchanged");
    // Only the sum shows these; all their bytes are in range.
    for start in [275, 825, 1650] {
        let mut patch = [0; 134];
        nibbles::pack(&stream[start + 5..], &mut patch);
        assert_eq!(test_patch(&patch), outcome(0, 0));
    }
    // In byte 26, across bytes 2 and 3, and twice the last nibble with the checksum.
    for (at, exchanged) in [
        (275 + 57, [0x04, 0x06]),
        (825 + 10, [0x03, 0x01]),
        (1100 + 272, [0x22, 0x00]),
        (1650 + 272, [0x01, 0x00]),
    ] {
        assert_eq!(stream[at..at + 2], exchanged);
        Damage::Exchange { at }.apply(&mut stream);
    }
    assert_eq!(
        bank_names(&stream),
        [BASS, STRINGS, LEAD, BASS, STRINGS, LEAD, STRINGS, BASS]
    );
}

#[test]
fn nibble_pairs_put_back_are_the_dumps_as_written() {
    let mut stream = vector("nibble_pair");
    for (start, packed, bytes) in [
        (275, 105, [0x04, 0x01]),
        (550, 105, [0x04, 0x01]),
        (1100, 105, [0x04, 0x01]),
        (1375, 105, [0x04, 0x01]),
        (1650, 76, [0x09, 0x00]),
        (1925, 133, [0x00, 0x02]),
        (2200, 0, [0x02, 0x00]),
    ] {
        let at = low_nibble(start, packed);
        assert!(stream[at..at + 2].is_ascii());
        assert_ne!(stream[at..at + 2], bytes);
        Damage::ReplaceTwo { at, bytes }.apply(&mut stream);
        assert_eq!(record(&stream, start).1[packed], bytes[0] + 16 * bytes[1]);
    }
    assert_eq!(
        bank_names(&stream),
        [BASS, BASS, BASS, STRINGS, BASS, BASS, STRINGS, LEAD, BASS, LEAD]
    );
}

#[test]
fn active_sensing_is_the_bank_with_feh_behind_every_third_byte() {
    let (stream, bank) = (vector("active_sensing"), vector("bank_of_three"));
    assert_eq!(stream, with_active_sensing(&bank, 3));
    assert_eq!(bank_names(&stream), [BASS, STRINGS, LEAD]);
    // One FEH of all stands behind the last dump.
    let counted: usize = reports(&stream).map(|report| report.noise).sum();
    assert_eq!(counted + 1, stream.len() - bank.len());
}

#[test]
fn a_noisy_line_carries_the_dumps_all_the_same() {
    let stream = vector("noisy_line");
    let dumps = [(3, BASS), (918, STRINGS), (1210, LEAD)];
    assert!(dumps
        .iter()
        .all(|&(start, name)| name_at(&stream, start) == name));
    assert_eq!(record(&stream, 304).0.bytes, [0x15, 0x7F, 0, 0]);
    // Of its real time, 24 bytes stand in no message.
    let counted: usize = reports(&stream).map(|report| report.noise).sum();
    assert_eq!(counted + 24, model::noise(&stream));
    // Without any, every message has the same answer.
    let quiet = less_real_time(&stream);
    let told = reports(&stream).map(|report| report_outcome(&report));
    assert!(told.eq(reports(&quiet).map(|report| report_outcome(&report))));
}

#[test]
fn dumps_hold_the_values_found_in_them() {
    let stream = vector("found_values");
    let refused = reports(&stream).filter(|report| report.answer == 11);
    let mut dumps = 0;
    for report in refused.filter(|report| report.end - report.start == 275) {
        let mut patch = [0; 134];
        nibbles::pack(&stream[report.start + 5..], &mut patch);
        let place = report.detail;
        assert_eq!(report.value, model::value(place, patch[place]));
        // All else is as it was.
        patch[place] = bass()[place];
        assert_eq!(patch, bass());
        dumps += 1;
    }
    assert_eq!(dumps, 13);
}

#[test]
fn splits_are_what_they_say() {
    let (reading, packed) = record(&vector("split"), 0);
    assert_eq!(reading.bytes, [7, 0, 0, 0]);
    assert_eq!(packed, SPLIT);

    let stream = vector("split_edges");
    let records = reports(&stream).map(|report| record(&stream, report.start));
    let (readings, splits): (Vec<_>, Vec<_>) = records.unzip();
    let numbers = readings.iter().map(|reading| reading.bytes);
    assert!(numbers.eq([[0; 4], [49, 0, 0, 0], [1, 0, 0, 0], [25, 0, 0, 0]]));
    let fields = model::split_fields();
    let greatest: Vec<u8> = fields.iter().map(|field| field.2 as u8).collect();
    let least: Vec<u8> = fields.iter().map(|field| field.1 as u8).collect();
    assert_eq!(splits, [&[0; 18][..], &greatest, &least, &SPLIT]);
}

#[test]
fn refused_splits_hold_the_values_found_in_them() {
    let stream = vector("splits_refused");
    let mut places = BTreeSet::new();
    for report in reports(&stream).filter(|report| report.answer == 11) {
        let message = less_real_time(&stream[report.start..report.end]);
        let mut split = [0; 18];
        nibbles::pack(&message[5..41], &mut split);
        assert_eq!(test_split(&split), report_outcome(&report));
        let place = report.detail;
        assert_eq!(report.value, model::split_value(place, split[place]));
        places.insert(place);
    }
    // Every place but four of the name.
    assert!(places.into_iter().eq([0].into_iter().chain(5..18)));
}

#[test]
fn dummy_splits_are_fifty_of_000s() {
    let stream = vector("dummy_splits");
    let (dummies, rest) = stream.as_chunks::<41>();
    assert_eq!((dummies.len(), rest.len()), (50, 0));
    for dummy in dummies {
        assert_eq!(dummy[..4], [0xF0, 0x10, 0x06, 0x02]);
        assert_eq!(dummy[4..40], [0; 36]);
        assert_eq!(dummy[40], 0xF7);
    }
}

#[test]
fn operations_are_what_they_say() {
    let stream = vector("operations");
    let told: Vec<(usize, [u8; 4])> = reports(&stream)
        .map(|report| (report.detail, record(&stream, report.start).0.bytes))
        .collect();
    let requests = [[0, 0], [1, 0], [1, 5], [1, 99], [3, 0], [4, 0]];
    let groups = [[6, 0], [6, 5], [2, 0], [2, 5]];
    let stores = [[0, 0, 0], [5, 1, 0], [99, 9, 5], [42, 3, 0x7F]];
    let requests = requests.iter().map(|bytes| (4, come_with_it(bytes)));
    let groups = groups.iter().map(|bytes| (7, come_with_it(bytes)));
    let banks = [0, 5, 9].map(|bank| (10, [bank, 0, 0, 0]));
    let stores = stores.iter().map(|bytes| (14, come_with_it(bytes)));
    let unlock = [(12, [0; 4])];
    let among_real_time = [(12, [0; 4]), (14, [5, 1, 0, 0]), (7, [6, 3, 0, 0])];
    let expected = requests.chain(groups).chain(banks).chain(unlock);
    let expected: Vec<_> = expected.chain(stores).chain(among_real_time).collect();
    assert_eq!(told, expected);
}

#[test]
fn operations_set_a_unit_up() {
    let stream = vector("operations");
    let (mut unit, mut place) = (Unit::default(), 0);
    let (mut meant, mut sent) = (Vec::new(), Vec::new());
    for report in reports(&stream) {
        let step = unit.step(&stream, place);
        assert_eq!(step.report, report);
        (unit, place) = (step.unit, report.end);
        meant.extend(step.meant.then_some(report.start));
        sent.extend(step.sent.map(|message| (message[4], message[5])));
    }
    let group = Some(3);
    let expected = Unit {
        bank: 9,
        locked: false,
        group,
    };
    assert_eq!(unit, expected);
    // Number 5 then: the third store message is its own and the fourth anyone's.
    assert_eq!(meant, [109, 117]);
    assert_eq!(sent, [(6, 1), (2, 1), (6, 4)]);
}

#[test]
fn refused_operations_leave_a_unit_as_it_was() {
    let stream = vector("operations_refused");
    let mut unit = Unit {
        bank: 7,
        locked: false,
        group: None,
    };
    let before = unit;
    for report in reports(&stream) {
        let step = unit.step(&stream, report.start);
        assert!(!step.meant && step.sent.is_none());
        // The one that interrupts another is accepted.
        assert_eq!(report.answer == 0, report.start == 299);
        assert_eq!(step.unit == before, report.start < 299);
        unit = step.unit;
    }
    assert_eq!((unit.bank, unit.locked), (5, true));
}

#[test]
fn edits_turn_p_into_the_patch_they_say() {
    let mut patch = P;
    for stream in ["remote_edit", "bus_edit"].map(vector) {
        for report in reports(&stream) {
            let [a, b, c, d] = record(&stream, report.start).0.bytes;
            let done = match report.detail {
                0x06 => apply_edit(&mut patch, a, b),
                _ => apply_bus_edit(&mut patch, a, b, c, d),
            };
            assert_eq!(done, outcome(0, 0));
        }
    }
    let mut expected = P;
    expected[26] = 127;
    expected[19] = 0xE0;
    expected[86] = 0xFF;
    expected[104..107].copy_from_slice(&[1, 0xFF, 1]);
    expected[131..].copy_from_slice(&[0x14, 0xC0, 0x1F]);
    assert_eq!(patch, expected);
}

#[test]
fn levers_are_routed_to_portamento_time() {
    let stream = vector("portamento");
    assert_eq!(name_at(&stream, 0), "GLIDE   ");
    let (numbered, patch) = record(&stream, 0);
    assert_eq!(numbered.bytes, [7, 0, 0, 0]);
    assert_eq!(patch[113..116], [18, 20, 32]);
    let (_, patch) = record(&stream, 275);
    assert_eq!(patch[131..], [20, 0xC0, 32]);

    // The edit makes of bus 9 what the second dump has there.
    let [bus, source, amount, destination] = record(&stream, 550).0.bytes;
    let mut edited = P;
    assert_eq!(
        apply_bus_edit(&mut edited, bus, source, amount, destination),
        outcome(0, 0)
    );
    assert_eq!(edited[..131], P[..131]);
    assert_eq!(edited[131..], patch[131..]);
}

#[test]
fn the_plan_turns_the_returned_patch_into_the_lent_one() {
    let [returned, lent, plan] = ["plan_returned", "plan_lent", "plan"].map(vector);
    assert_eq!(name_at(&returned, 0), LEAD);
    assert_eq!(name_at(&lent, 0), LEAD);
    assert_eq!(plan_files(&returned, &lent, false).unwrap(), plan);
    let edits = fs::read(directory().join("plan.edits")).unwrap();
    assert_eq!(plan_files(&returned, &lent, true).unwrap(), edits);

    let [a, b] = [&returned, &lent].map(|file| record(file, 0).1);
    assert_eq!(check_plan(&a, &b, &plan), outcome(0, 0));
    assert_eq!(check_plan(&b, &a, &plan), outcome(20, 0));
}

#[test]
fn a_stored_unit_has_both_forms() {
    let (old, new) = (vector("stored_unit"), new_vector("stored_unit"));
    assert_eq!(stored(&old), new);
    assert_eq!(restored(&new), old);
    assert_eq!(stored_file(&old, false), (new.clone(), b"done\n".to_vec()));
    assert_eq!(stored_file(&new, true), (old.clone(), b"done\n".to_vec()));

    let glide = "GLIDE   ";
    let names = [BASS, STRINGS, LEAD, glide, BASS];
    assert_eq!(bank_names(&old[..1375]), names);
    assert_eq!(record(&old, 1375).0.detail, 0x03);
    let (records, master) = new[10..].as_chunks::<135>();
    assert_eq!(records.len(), 6);
    for (record, (number, name)) in records.iter().zip([7, 3, 7, 99, 0].into_iter().zip(names)) {
        let mut text = [0; 8];
        assert_eq!(show_name(&record[1..], &mut text), outcome(0, 8));
        assert_eq!((record[0], &text[..]), (number, name.as_bytes()));
    }
    // The master's 172 bytes are no multiple of a record's.
    assert_eq!(master.len(), 172 - 135);
    assert_eq!(new[685..], record(&vector("master"), 0).1);

    let noisy = vector("stored_noisy");
    assert_eq!(less_real_time(&noisy), old);
    assert_eq!(stored(&noisy), new);
}

#[test]
fn stored_files_that_are_refused() {
    let not_of_the_form = placed(0, outcome(15, 0));
    refuses_so(to_stored, &vector("stored_form"), not_of_the_form);
    // STRINGS with detune -128 stands behind a device inquiry and before a master that is cut.
    let refused = vector("stored_refused");
    refuses_so(to_stored, &refused, placed(556, found(19, -128)));
    let (_, said) = stored_file(&refused, false);
    assert_eq!(said, b"refused: 11 556 19 -128\n");
    // Its offsets are exchanged, and its first record is bad too.
    refuses_so(from_stored, &new_vector("stored_header"), not_of_the_form);
    // The last bus of GLIDE is half used, and the record behind it has number 100.
    let record = new_vector("stored_record");
    refuses_so(from_stored, &record, placed(415, outcome(12, 9)));
    let (_, said) = stored_file(&record, true);
    assert_eq!(said, b"refused: 12 415 9 0\n");

    // Of the others, the bank is of the form; Active Sensing stands behind its last dump too.
    stored(&vector("bank_of_three"));
    refuses_so(to_stored, &vector("active_sensing"), not_of_the_form);
}

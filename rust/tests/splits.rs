//! Splits of the Matrix-6R, by the listing of source document 003.

use std::collections::BTreeMap;
use std::fs;
use std::ops::RangeInclusive;

use matrix1000::{
    incoming, messages, report_at, reports, to_vec, to_writer, Error, Format, Kind, Length,
    Message, NotAllowed, Patch, Reader, Split, Voices, Zone,
};

/// The range of each byte's bits.
const RANGES: [RangeInclusive<i16>; 18] = [
    0..=63, // the name
    0..=63,
    0..=63,
    0..=63,
    0..=63,
    0..=63,
    0..=63, // not used
    0..=63,
    0..=127, // lower and upper patch
    0..=127,
    0..=127, // left zone
    -32..=31,
    0..=1,
    0..=127, // right zone
    -32..=31,
    0..=1,
    -32..=31, // balance
    0..=3,    // voices
];

/// A byte's value at a place.
fn value_at(place: usize, byte: u8) -> i16 {
    if *RANGES[place].start() < 0 {
        byte.cast_signed().into()
    } else {
        byte.into()
    }
}

/// The register's number, detail and value of a refusal.
fn refusal<T>(result: Result<T, Error>) -> (u8, usize, i16) {
    let error = result.map(drop).unwrap_err();
    (error.number(), error.detail(), error.value())
}

/// The dump of any 18 bytes, laid out by hand.
fn laid_out(number: u8, packed: [u8; 18]) -> Vec<u8> {
    let nibbles = packed.iter().flat_map(|byte| [byte % 16, byte / 16]);
    let sum: u32 = packed.into_iter().map(u32::from).sum();
    let mut dump = vec![0xF0, 0x10, 0x06, 0x02, number];
    dump.extend(nibbles);
    dump.extend([u8::try_from(sum % 128).unwrap(), 0xF7]);
    dump
}

/// A split with something in every field.
fn full() -> Split {
    let mut split = Split::default();
    split.set_name("BASS+1").unwrap();
    split.set_lower_patch(99).unwrap();
    split.set_upper_patch(127).unwrap();
    let left = Zone {
        limit: 59,
        transpose: -32,
        midi_out: true,
    };
    split.set_left_zone(left).unwrap();
    let right = Zone {
        limit: 60,
        transpose: 31,
        midi_out: true,
    };
    split.set_right_zone(right).unwrap();
    split.set_balance(-31).unwrap();
    split.set_voices(Voices::ZeroSix);
    split
}

#[test]
fn the_bytes_of_a_split() {
    let bytes = [
        2, 1, 19, 19, 43, 49, 0, 0, 99, 127, 59, 0xE0, 1, 60, 31, 1, 0xE1, 3,
    ];
    let split = full();
    assert_eq!(split.to_bytes(), bytes);
    assert_eq!(Split::try_from(bytes), Ok(split));
    assert_eq!(<[u8; 18]>::from(split), bytes);
    assert_eq!(split.as_ref(), bytes);
    assert_eq!(Split::default().to_bytes(), [0; 18]);
    assert!(format!("{split:?}").starts_with("Split { name: \"BASS+1\", bytes: [2, 1, 19,"));

    assert_eq!(split.name(), "BASS+1");
    assert_eq!((split.lower_patch(), split.upper_patch()), (99, 127));
    let (left, right) = (split.left_zone(), split.right_zone());
    assert_eq!((left.limit, left.transpose, left.midi_out), (59, -32, true));
    assert_eq!(
        (right.limit, right.transpose, right.midi_out),
        (60, 31, true)
    );
    assert_eq!((split.balance(), split.voices()), (-31, Voices::ZeroSix));
}

#[test]
fn a_dump_of_a_split() {
    for (number, split) in [(0, Split::default()), (49, full())] {
        let message = Message::Split { number, split };
        let dump = message.to_vec().unwrap();
        assert_eq!(dump, laid_out(number, split.to_bytes()));
        assert_eq!(dump.len(), Kind::Split.length());
        assert_eq!(Message::read(&dump), Ok(message));
        assert_eq!((message.split(), message.patch()), (Some(&split), None));
        assert_eq!(Message::from((number, split)), message);
        assert_eq!(report_at(&dump, 0).unwrap().kind, Ok(Kind::Split));

        let mut out = [0xA5; 44];
        for room in 0..43 {
            assert!(matches!(
                message.write_to_slice(&mut out[..room]),
                Err(Error::NoRoom { needed: 43, given, .. }) if given == room
            ));
        }
        assert_eq!(out, [0xA5; 44]);
        assert_eq!(message.write_to_slice(&mut out), Ok(43));
        assert_eq!((&out[..43], out[43]), (dump.as_slice(), 0xA5));
    }
    assert_eq!(Kind::try_from(0x02), Ok(Kind::Split));
    let edit_buffer = Message::EditBuffer(Patch::default());
    assert_eq!(edit_buffer.split(), None);
}

#[test]
fn numbers_are_0_to_49() {
    let split = full();
    for number in 0..=255 {
        let message = Message::Split { number, split };
        let mut out = [0xA5; 43];
        let written = message.write_to_slice(&mut out);
        if number < 50 {
            assert_eq!(written, Ok(43));
            assert_eq!(Message::read(&out), Ok(message));
            continue;
        }
        let refused = Error::NotAllowed(NotAllowed::SplitNumber(number));
        assert_eq!((written, out), (Err(refused), [0xA5; 43]));
        assert_eq!(message.to_vec(), Err(refused));
        if number < 128 {
            let dump = laid_out(number, split.to_bytes());
            assert_eq!(Message::read(&dump), Err(refused));
        }
    }
}

/// A dump with its kind's opcode and so many bytes in all.
fn of_length(length: usize) -> Vec<u8> {
    let mut dump = vec![0; length];
    dump[..4].copy_from_slice(&[0xF0, 0x10, 0x06, 0x02]);
    dump[length - 1] = 0xF7;
    dump
}

#[test]
fn other_lengths_are_refused() {
    for length in (5..43).chain(44..400) {
        let refused = Error::WrongLength(Length::Message {
            kind: Kind::Split,
            found: length,
        });
        assert_eq!(Message::read(&of_length(length)), Err(refused));
    }
    assert!(Message::read(&of_length(43)).is_ok());
    for length in (0..18).chain(19..200) {
        let refused = Error::WrongLength(Length::Split(length));
        assert_eq!(Split::try_from(&vec![0xFF; length][..]), Err(refused));
    }
}

/// What a Matrix-1000 sends when asked for everything: its splits have no number and no sum.
#[test]
fn fifty_dummy_splits() {
    let mut sent = to_vec((0..100).map(|number| (number, Patch::default()))).unwrap();
    for _ in 0..50 {
        sent.extend(of_length(41));
    }
    sent.extend(Message::from((0, full())).to_vec().unwrap());
    let (good, refused): (Vec<_>, Vec<_>) =
        messages(&sent).partition(|found| found.message.is_ok());
    assert_eq!((good.len(), refused.len()), (101, 50));
    assert_eq!(good[100].message, Ok(Message::from((0, full()))));
    for found in refused {
        let error = found.message.unwrap_err();
        assert_eq!(error.to_string(), "a split message has 43 bytes, not 41");
    }
}

#[test]
fn every_byte_at_every_place() {
    for place in 0..18 {
        for byte in 0..=255 {
            let mut bytes = full().to_bytes();
            bytes[place] = byte;
            let value = value_at(place, byte);
            let tested = Split::try_from(bytes);
            let dump = laid_out(7, bytes);
            let read = Message::read(&dump);
            let report = reports(&dump).next().unwrap();
            if RANGES[place].contains(&value) {
                let split = tested.unwrap();
                assert_eq!(split.to_bytes(), bytes);
                assert_eq!(read, Ok(Message::Split { number: 7, split }));
                assert_eq!(report.kind, Ok(Kind::Split));
                continue;
            }
            let error = tested.unwrap_err();
            assert!(matches!(
                error,
                Error::OutOfRange {
                    format: Format::Split,
                    ..
                }
            ));
            assert_eq!(refusal(tested), (11, place, value));
            assert_eq!((read, report.kind), (Err(error), Err(error)));
            assert_eq!(report_at(&dump, 0).unwrap().kind, Err(error));
            // Of two, the lower place is told.
            bytes[17] = if place == 17 { byte } else { 0xFF };
            assert_eq!(refusal(Split::try_from(bytes)), (11, place, value));
        }
    }
}

#[test]
fn what_is_damaged_on_the_way() {
    let dump = laid_out(0, full().to_bytes());
    for index in 0..36 {
        let mut wide = dump.clone();
        wide[5 + index] |= 0x10;
        assert_eq!(refusal(Message::read(&wide)), (9, index, 0));
    }
    let mut sum = dump.clone();
    sum[41] ^= 0x40;
    assert_eq!(Message::read(&sum), Err(Error::WrongSum));
    assert_eq!(Message::read(&dump[..42]), Err(Error::Cut));
    let noisy: Vec<u8> = dump.iter().flat_map(|&byte| [byte, 0xFE]).collect();
    let found = messages(&noisy).next().unwrap();
    assert_eq!((found.range(), found.noise), (0..85, 42));
    assert_eq!(found.message, Ok(Message::from((0, full()))));
}

/// Sets one field, and gives what it has then.
type Set = fn(&mut Split, u8) -> Result<u8, Error>;

/// The fields that have a setter, by their places.
const SETTERS: [(usize, Set); 9] = [
    (8, |split, byte| {
        split.set_lower_patch(byte).map(|()| split.lower_patch())
    }),
    (9, |split, byte| {
        split.set_upper_patch(byte).map(|()| split.upper_patch())
    }),
    (10, |split, limit| {
        let zone = split.left_zone();
        let set = split.set_left_zone(Zone { limit, ..zone });
        set.map(|()| split.left_zone().limit)
    }),
    (11, |split, byte| {
        let (zone, transpose) = (split.left_zone(), byte.cast_signed());
        let set = split.set_left_zone(Zone { transpose, ..zone });
        set.map(|()| split.left_zone().transpose.cast_unsigned())
    }),
    (12, |split, byte| {
        let (zone, midi_out) = (split.left_zone(), byte != 0);
        let set = split.set_left_zone(Zone { midi_out, ..zone });
        set.map(|()| split.left_zone().midi_out.into())
    }),
    (13, |split, limit| {
        let zone = split.right_zone();
        let set = split.set_right_zone(Zone { limit, ..zone });
        set.map(|()| split.right_zone().limit)
    }),
    (14, |split, byte| {
        let (zone, transpose) = (split.right_zone(), byte.cast_signed());
        let set = split.set_right_zone(Zone { transpose, ..zone });
        set.map(|()| split.right_zone().transpose.cast_unsigned())
    }),
    (15, |split, byte| {
        let (zone, midi_out) = (split.right_zone(), byte != 0);
        let set = split.set_right_zone(Zone { midi_out, ..zone });
        set.map(|()| split.right_zone().midi_out.into())
    }),
    (16, |split, byte| {
        let set = split.set_balance(byte.cast_signed());
        set.map(|()| split.balance().cast_unsigned())
    }),
];

#[test]
fn a_field_takes_a_range_and_changes_nothing_else() {
    for (place, set) in SETTERS {
        // What is enabled or not has no other values.
        let last = if RANGES[place] == (0..=1) { 1 } else { 255 };
        for byte in 0..=last {
            let mut split = full();
            let result = set(&mut split, byte);
            let value = value_at(place, byte);
            let mut expected = full().to_bytes();
            if RANGES[place].contains(&value) {
                expected[place] = byte;
                assert_eq!(result, Ok(byte));
            } else {
                assert_eq!(refusal(result), (11, place, value));
            }
            assert_eq!(split.to_bytes(), expected);
        }
    }
    for (number, voices) in (0..).zip(Voices::ALL) {
        let mut split = full();
        split.set_voices(voices);
        assert_eq!((split.voices(), split.as_bytes()[17]), (voices, number));
        assert_eq!(split.as_bytes()[..17], full().as_bytes()[..17]);
        assert_eq!(voices.lower() + voices.upper(), 6);
    }
    // Of a zone's two values, the lower place is told.
    let zone = Zone {
        limit: 128,
        transpose: -33,
        midi_out: false,
    };
    assert_eq!(refusal(full().set_left_zone(zone)), (11, 10, 128));
    assert_eq!(refusal(full().set_right_zone(zone)), (11, 13, 128));
}

#[test]
fn names() {
    let mut split = Split::default();
    assert_eq!(split.name(), "@@@@@@");
    // A name is stored and shown as the start of a patch's.
    for text in [" !\"#$%", "&'()*+", "012345", "6789:;", "ABCXYZ", "[\\]^_ "] {
        split.set_name(text).unwrap();
        assert_eq!(split.name(), text);
        let mut patch = Patch::default();
        patch.set_name(&format!("{text}__")).unwrap();
        assert_eq!(split.as_bytes()[..6], patch.as_bytes()[..6]);
        assert_eq!(split.as_bytes()[6..], [0; 12]);
    }
    for name in ["", "BASS", "BASS 1 ", "BASS 1  ", "B\u{c4}SS 1"] {
        let refused = Error::WrongLength(Length::SplitName(name.len()));
        assert_eq!(split.set_name(name), Err(refused));
    }
    for (name, character) in [("BASs 1", 's'), ("B\u{c4}SS1", '\u{c4}'), ("BASS\0 ", '\0')] {
        let refused = Error::NotAllowed(NotAllowed::Character(character));
        assert_eq!(split.set_name(name), Err(refused));
    }
    assert_eq!(split.name(), "[\\]^_ ");
}

#[test]
fn numbered_splits_keep_their_numbers() {
    let splits = BTreeMap::from([(3, Split::default()), (49, full())]);
    let written = to_vec(&splits).unwrap();
    assert_eq!(to_vec(splits.clone()).unwrap(), written);
    assert_eq!((written.len(), written[4], written[43 + 4]), (86, 3, 49));
    let mut read = BTreeMap::new();
    for found in messages(&written) {
        if let Ok(Message::Split { number, split }) = found.message {
            read.insert(number, split);
        }
    }
    assert_eq!(read, splits);
    let refused = to_writer(Vec::new(), [(50, full())]).unwrap_err();
    assert_eq!(
        refused.to_string(),
        "split number 50 is not allowed: 0 to 49"
    );
}

#[test]
fn from_the_cable() {
    let split = full();
    let dump = laid_out(49, split.to_bytes());
    let expected = Ok(Message::Split { number: 49, split });
    for first in 0..43 {
        let mut reader = Reader::new();
        let fed = reader.feed(&dump[..first]).unwrap();
        assert_eq!((fed.taken, fed.found), (first, None));
        let fed = reader.feed(&dump[first..]).unwrap();
        assert_eq!(fed.found.unwrap().message, expected);
        assert_eq!(reader.packed(), split.as_bytes());
        reader.feed(&[]).unwrap();
        assert_eq!(reader.packed(), []);
    }
    // A refusal speaks of a split, whatever came with which feed.
    let mut bytes = split.to_bytes();
    bytes[11] = 0xDF;
    let refused = [
        laid_out(49, bytes),
        laid_out(50, split.to_bytes()),
        of_length(41),
    ];
    for dump in refused {
        let expected = Message::read(&dump);
        assert!(expected.is_err());
        for first in 0..dump.len() {
            let mut reader = Reader::new();
            reader.feed(&dump[..first]).unwrap();
            let fed = reader.feed(&dump[first..]).unwrap();
            assert_eq!(fed.found.unwrap().message, expected);
            assert_eq!(reader.packed(), []);
        }
        let found = incoming(dump.as_slice()).next().unwrap().unwrap();
        assert_eq!(found.message, expected);
    }
}

#[test]
fn the_header_for_c_names_the_same_fields() {
    let header = concat!(env!("CARGO_MANIFEST_DIR"), "/../c/matrix.h");
    let header = fs::read_to_string(header).unwrap();
    let (_, listed) = header.split_once("enum matrix_split_place {").unwrap();
    let (listed, _) = listed.split_once("};").unwrap();
    let listed = listed.trim().lines().filter(|line| line.contains(" = "));
    let mut seen = 0;
    for line in listed {
        let (_, behind) = line.split_once(" = ").unwrap();
        let (place, behind) = behind
            .split_once(|next: char| !next.is_ascii_digit())
            .unwrap();
        let place: usize = place.parse().unwrap();
        if place < 8 {
            continue;
        }
        assert_eq!(place, 8 + seen);
        let (_, name) = behind.split_once("/* ").unwrap();
        let (name, _) = name.split_once([':', '*']).unwrap();
        let mut bytes = [0; 18];
        bytes[place] = 0x80;
        let sentence = Split::try_from(bytes).unwrap_err().to_string();
        let field = format!(" for {}, byte {place} of the split: ", name.trim());
        assert!(sentence.contains(&field), "{sentence}");
        seen += 1;
    }
    assert_eq!(seen, 10);
}

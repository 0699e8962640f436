//! What errors say: what was found, and what is expected.

use std::fmt::Display;

use matrix1000::{
    messages, reports, Bank, Bus, BusEdit, Edit, Error, Kind, Length, Master, Message, NotAllowed,
    Parameter, Patch, Request, Split, Target, Zone,
};

fn says<T>(result: Result<T, impl Display>, sentence: &str) {
    match result {
        Ok(_) => panic!("not refused: {sentence}"),
        Err(error) => assert_eq!(error.to_string(), sentence),
    }
}

#[test]
fn of_what_is_handed_in() {
    let mut patch = Patch::default();
    says(
        patch.set_name("BASS"),
        "a patch's name has 8 bytes, filled up with spaces, not 4",
    );
    says(
        patch.set_name("BASS a  "),
        "'a' is not allowed in a name: space to underscore, so no small letters",
    );
    says(
        Message::Patch { number: 100, patch }.to_vec(),
        "patch number 100 is not allowed: 0 to 99",
    );
    says(
        patch.set_bus(10, Bus::default()),
        "bus 10 is not allowed: 0 to 9",
    );
    says(
        Parameter::try_from(99),
        "parameter 99 is not one of the 96 of a patch",
    );
    says(
        Edit::from_bytes(0, 200),
        "value byte 200 is not allowed: 0 to 127",
    );
    says(
        BusEdit::from_bytes([0, 0, 200, 0]),
        "amount byte 200 is not allowed: 0 to 127",
    );
    says(
        Patch::try_from(&[0; 133][..]),
        "a patch has 134 bytes, not 133",
    );
    says(Master::try_from(&[][..]), "a master has 172 bytes, not 0");
    says(
        Bank::try_from(&[0; 1][..]),
        "a bank has 134 bytes for each of at most 100 patches, not 1 in all",
    );
    says(
        Message::EditBuffer(patch).write_to_slice(&mut [0; 9]),
        "the output has 9 bytes, and 275 are needed",
    );
    says(
        patch.set(Parameter::DCO_2_DETUNE, 32),
        "32 is out of range for DCO 2 Detune, byte 19 of the patch: -32 to 31",
    );
    says(
        Edit::new(Parameter::DCO_1_FREQUENCY, 64),
        "64 is out of range for DCO 1 Initial Frequency, byte 9 of the patch: 0 to 63",
    );
    says(
        Edit::from_bytes(0, 64),
        "192 is out of range for DCO 1 Initial Frequency, byte 9 of the patch: 0 to 63",
    );
}

#[test]
fn of_splits_that_are_handed_in() {
    let mut split = Split::default();
    says(
        split.set_name("BASS"),
        "a split's name has 6 bytes, filled up with spaces, not 4",
    );
    says(
        split.set_name("BASS a"),
        "'a' is not allowed in a name: space to underscore, so no small letters",
    );
    says(
        Message::Split { number: 50, split }.to_vec(),
        "split number 50 is not allowed: 0 to 49",
    );
    says(
        Split::try_from(&[0; 17][..]),
        "a split has 18 bytes, not 17",
    );
    says(
        Message::Split { number: 0, split }.write_to_slice(&mut [0; 42]),
        "the output has 42 bytes, and 43 are needed",
    );
    says(
        split.set_upper_patch(128),
        "128 is out of range for Upper Patch Number, byte 9 of the split: 0 to 127",
    );
    let zone = Zone {
        transpose: -33,
        ..Zone::default()
    };
    says(
        split.set_right_zone(zone),
        "-33 is out of range for Right Zone Transpose, byte 14 of the split: -32 to 31",
    );
    says(
        split.set_balance(32),
        "32 is out of range for Left/Right Balance, byte 16 of the split: -32 to 31",
    );
}

#[test]
fn of_operations_that_are_handed_in() {
    let store = |number, bank, to| Message::Store { number, bank, to };
    let group = |total, id| Message::GroupMode { total, id };
    let refusals = [
        (
            Message::from(Request::Patch(100)),
            "patch number 100 is not allowed: 0 to 99",
        ),
        (group(1, 0), "group total 1 is not allowed: 2 to 6"),
        (group(7, 6), "group total 7 is not allowed: 2 to 6"),
        (group(6, 6), "unit number 6 is not allowed: 0 to 5"),
        (Message::SetBank(10), "bank 10 is not allowed: 0 to 9"),
        (
            store(100, 10, Target::Any),
            "patch number 100 is not allowed: 0 to 99",
        ),
        (store(99, 10, Target::Any), "bank 10 is not allowed: 0 to 9"),
        (
            store(99, 9, Target::Unit(6)),
            "unit number 6 is not allowed: 0 to 5",
        ),
        // Sent, it would go to any unit.
        (
            store(99, 9, Target::Unit(127)),
            "unit number 127 is not allowed: 0 to 5",
        ),
    ];
    for (message, sentence) in refusals {
        says(message.to_vec(), sentence);
        says(message.write_to_slice(&mut []), sentence);
    }
    says(
        Message::UnlockBank.write_to_slice(&mut [0; 4]),
        "the output has 4 bytes, and 5 are needed",
    );
    says(
        Request::try_from([2, 0]),
        "type 2 of a request is not allowed: 0, 1, 3 or 4",
    );
    says(
        Target::try_from(6),
        "ID 6 of a store message is not allowed: 0 to 5, or 127 for any unit",
    );
}

#[test]
fn of_lists_of_edits() {
    let patch = Patch::default();
    let mut bass = patch;
    bass.set_name("BASS 1  ").unwrap();
    let names = "the two patches have different names, \"BASS 1  \" and \"@@@@@@@@\", \
                 and no edit reaches a name";
    says(bass.edits_to(&patch), names);
    says(bass.check_edits_to(&patch, &[]), names);
    says(
        patch.check_edits_to(&patch, &[0xF0]),
        "the list of edits is not accepted: it has something other than allowed edits as they are \
         written, or ends in another patch",
    );
}

#[test]
fn of_every_byte_of_a_patch() {
    let refused = |place| {
        let mut bytes = Patch::default().to_bytes();
        bytes[place] = 0x80;
        Patch::try_from(bytes)
    };
    says(
        refused(7),
        "128 is out of range for character 7 of the name, byte 7 of the patch: 0 to 63",
    );
    says(
        refused(26),
        "128 is out of range for VCF Initial Frequency, byte 26 of the patch: 0 to 127",
    );
    says(
        refused(104),
        "128 is out of range for the source of bus 0, byte 104 of the patch: 0 to 20",
    );
    says(
        refused(132),
        "-128 is out of range for the amount of bus 9, byte 132 of the patch: -64 to 63",
    );
    says(
        refused(133),
        "128 is out of range for the destination of bus 9, byte 133 of the patch: 0 to 32",
    );
    for place in 0..Patch::LENGTH {
        let error = refused(place).unwrap_err();
        assert_eq!((error.number(), error.detail()), (11, place));
        assert!(error.to_string().contains("128 is out of range for "));
    }
    // Nothing more is said of a place that no patch has.
    let mut error = refused(0).unwrap_err();
    if let Error::OutOfRange { place, .. } = &mut error {
        *place = 134;
    }
    assert_eq!(
        error.to_string(),
        "128 is out of range for byte 134 of the patch"
    );
}

#[test]
fn of_every_byte_of_a_split() {
    let refused = |place| {
        let mut bytes = Split::default().to_bytes();
        bytes[place] = 0x80;
        Split::try_from(bytes)
    };
    let fields = [
        (
            0,
            "128 is out of range for character 0 of the name",
            "0 to 63",
        ),
        (
            5,
            "128 is out of range for character 5 of the name",
            "0 to 63",
        ),
        (
            6,
            "128 is out of range for a field that is not used",
            "0 to 63",
        ),
        (
            7,
            "128 is out of range for a field that is not used",
            "0 to 63",
        ),
        (8, "128 is out of range for Lower Patch Number", "0 to 127"),
        (10, "128 is out of range for Left Zone Limit", "0 to 127"),
        (
            11,
            "-128 is out of range for Left Zone Transpose",
            "-32 to 31",
        ),
        (
            12,
            "128 is out of range for Left Zone MIDI Out Enable",
            "0 to 1",
        ),
        (13, "128 is out of range for Right Zone Limit", "0 to 127"),
        (
            15,
            "128 is out of range for Right Zone MIDI Out Enable",
            "0 to 1",
        ),
        (
            16,
            "-128 is out of range for Left/Right Balance",
            "-32 to 31",
        ),
        (17, "128 is out of range for Voice Configuration", "0 to 3"),
    ];
    for (place, what, range) in fields {
        let sentence = format!("{what}, byte {place} of the split: {range}");
        says(refused(place), &sentence);
    }
    for place in 0..Split::LENGTH {
        let error = refused(place).unwrap_err();
        assert_eq!((error.number(), error.detail()), (11, place));
    }
    // Nothing more is said of a place that no split has, though a patch has it.
    let mut error = refused(0).unwrap_err();
    if let Error::OutOfRange { place, .. } = &mut error {
        *place = 18;
    }
    assert_eq!(
        error.to_string(),
        "128 is out of range for byte 18 of the split"
    );
}

/// A message with this behind F0H 10H 06H.
fn message(behind: &[u8]) -> Vec<u8> {
    [&[0xF0, 0x10, 0xFE, 0x06], behind, &[0xF7]].concat()
}

#[test]
fn of_messages() {
    let zeros = |opcode, behind, length: usize| {
        let mut bytes = vec![0; length - 4];
        (bytes[0], bytes[1]) = (opcode, behind);
        message(&bytes)
    };
    let refusals = [
        (
            zeros(0x01, 100, 275),
            Error::NotAllowed(NotAllowed::PatchNumber(100)),
            "patch number 100 is not allowed: 0 to 99",
        ),
        (
            zeros(0x02, 50, 43),
            Error::NotAllowed(NotAllowed::SplitNumber(50)),
            "split number 50 is not allowed: 0 to 49",
        ),
        (
            zeros(0x03, 2, 351),
            Error::NotAllowed(NotAllowed::Version(2)),
            "version 2 of a master is not allowed: 3",
        ),
        (
            zeros(0x0D, 1, 275),
            Error::NotAllowed(NotAllowed::Zero(1)),
            "1 behind the opcode of a patch to edit buffer is not allowed: 0",
        ),
        (
            message(&[0x06, 39, 0]),
            Error::NotAllowed(NotAllowed::Parameter(39)),
            "parameter 39 is not one of the 96 of a patch",
        ),
        (
            message(&[0x0B, 10, 0, 0, 0]),
            Error::NotAllowed(NotAllowed::Bus(10)),
            "bus 10 is not allowed: 0 to 9",
        ),
        (
            zeros(0x01, 0, 274),
            Error::WrongLength(Length::Message {
                kind: Kind::Patch,
                found: 274,
            }),
            "a single patch message has 275 bytes, not 274",
        ),
        (
            zeros(0x02, 0, 41),
            Error::WrongLength(Length::Message {
                kind: Kind::Split,
                found: 41,
            }),
            "a split message has 43 bytes, not 41",
        ),
        (
            message(&[0x06]),
            Error::WrongLength(Length::Message {
                kind: Kind::Edit,
                found: 5,
            }),
            "a remote edit message has 7 bytes, not 5",
        ),
    ];
    refused_in_reading(&refusals);
}

#[test]
fn of_operations() {
    let refusals = [
        (
            message(&[0x04, 5, 1]),
            Error::NotAllowed(NotAllowed::RequestType(5)),
            "type 5 of a request is not allowed: 0, 1, 3 or 4",
        ),
        (
            message(&[0x04, 1, 100]),
            Error::NotAllowed(NotAllowed::PatchNumber(100)),
            "patch number 100 is not allowed: 0 to 99",
        ),
        (
            message(&[0x04, 3, 1]),
            Error::NotAllowed(NotAllowed::RequestNumber(1)),
            "number 1 of a request that asks for no single patch is not allowed: 0",
        ),
        (
            message(&[0x07, 7, 6]),
            Error::NotAllowed(NotAllowed::Total(7)),
            "group total 7 is not allowed: 2 to 6",
        ),
        (
            message(&[0x07, 6, 6]),
            Error::NotAllowed(NotAllowed::UnitNumber(6)),
            "unit number 6 is not allowed: 0 to 5",
        ),
        (
            message(&[0x0A, 10]),
            Error::NotAllowed(NotAllowed::Bank(10)),
            "bank 10 is not allowed: 0 to 9",
        ),
        (
            message(&[0x0E, 100, 10, 6]),
            Error::NotAllowed(NotAllowed::PatchNumber(100)),
            "patch number 100 is not allowed: 0 to 99",
        ),
        (
            message(&[0x0E, 99, 10, 6]),
            Error::NotAllowed(NotAllowed::Bank(10)),
            "bank 10 is not allowed: 0 to 9",
        ),
        (
            message(&[0x0E, 99, 9, 6]),
            Error::NotAllowed(NotAllowed::Target(6)),
            "ID 6 of a store message is not allowed: 0 to 5, or 127 for any unit",
        ),
        (
            message(&[0x0C, 0]),
            Error::WrongLength(Length::Message {
                kind: Kind::UnlockBank,
                found: 6,
            }),
            "an unlock bank message has 5 bytes, not 6",
        ),
        (
            message(&[0x0E]),
            Error::WrongLength(Length::Message {
                kind: Kind::Store,
                found: 5,
            }),
            "a store edit buffer message has 8 bytes, not 5",
        ),
    ];
    refused_in_reading(&refusals);
}

/// Each of these messages is refused by an error that says this.
fn refused_in_reading(refusals: &[(Vec<u8>, Error, &str)]) {
    for (input, error, sentence) in refusals {
        assert_eq!(Message::read(input), Err(*error));
        assert_eq!(reports(input).next().unwrap().kind, Err(*error));
        assert_eq!(messages(input).count(), 1);
        assert_eq!(error.to_string(), *sentence);
    }
}
